val x val y : int
