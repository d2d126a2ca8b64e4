datatype t = X
