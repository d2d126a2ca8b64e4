datatype color = Red | Mixed of int
