val x = A.y
val z = A.x
val w = x
