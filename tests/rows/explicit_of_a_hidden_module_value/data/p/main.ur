val x = A.x
val y = (x, A.x)
