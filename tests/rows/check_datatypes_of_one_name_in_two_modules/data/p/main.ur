datatype t = X
val a : A.t = A.X
val b : t = X
