val y = 1 + A.x
