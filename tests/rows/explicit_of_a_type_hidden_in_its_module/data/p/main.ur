type t = bool
val a : A.t = "a"
val b : t = True
val c = A.x
