val y = A.y
