val y = z
