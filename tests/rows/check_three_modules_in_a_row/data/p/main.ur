val y : int = B.g (1, 2)
val z : A.t = y
