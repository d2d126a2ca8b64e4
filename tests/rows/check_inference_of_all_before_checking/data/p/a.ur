val x : int = "a"
