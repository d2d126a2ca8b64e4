fun f (c : A.color) : A.pair = case c of A.Red => (1, 2) | A.Mixed n => (n, n)
val x : $A.row = {A = 1}
val y = A.Mixed 1
