val y = A.x
