val y = A.x + 1
val z = A.id "a"
