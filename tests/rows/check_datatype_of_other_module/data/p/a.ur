datatype color = Red | Mixed of int
val c = Red
