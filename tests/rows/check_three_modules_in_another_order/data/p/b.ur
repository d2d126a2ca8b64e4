type u = A.t * A.t
