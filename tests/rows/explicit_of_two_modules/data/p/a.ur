val x = 1
fun id [t ::: Type] (x : t) : t = x
