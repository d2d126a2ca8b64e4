type t = int
fun f (x : t) : t = x
