val x = 1 val y = A.x
