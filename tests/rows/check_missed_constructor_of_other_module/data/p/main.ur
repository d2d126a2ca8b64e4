fun f (c : A.color) : int = case c of A.Red => 0
