val x = 1
val y = x
val x = "later"
