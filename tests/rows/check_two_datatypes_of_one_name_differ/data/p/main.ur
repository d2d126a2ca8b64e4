datatype t = X
val a : A.t = X
