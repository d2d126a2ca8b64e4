fun f (c : A.color) : int = case c of A.Red => 0 | A.Mixed n => n
val x = f A.c + f (A.Mixed 2)
