fun f (a : string) (x : string) : int = A.x
val y : int = f "a" "b"
