val x = y
