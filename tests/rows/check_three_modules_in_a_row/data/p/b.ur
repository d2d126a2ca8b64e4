type u = A.t * A.t
fun g (x : u) : A.t = A.f x.1
