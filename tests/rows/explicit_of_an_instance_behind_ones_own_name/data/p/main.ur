val i = 1
val t = show i
