datatype color = Red
val t = show Red
