val x = "a"
