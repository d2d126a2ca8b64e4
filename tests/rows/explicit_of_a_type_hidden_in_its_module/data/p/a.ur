type t = int
val x : t = 1
type t = string
