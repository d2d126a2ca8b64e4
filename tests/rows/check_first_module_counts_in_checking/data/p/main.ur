val y : int = "b"
