val x = 1
val x = "later"
