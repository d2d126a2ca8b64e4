val y = A_B9.x
