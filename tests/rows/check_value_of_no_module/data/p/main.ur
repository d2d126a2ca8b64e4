val y = B.x
