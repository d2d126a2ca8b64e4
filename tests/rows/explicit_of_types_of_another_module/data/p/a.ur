datatype color = Red | Mixed of int
type pair = int * int
con row = [A = int]
