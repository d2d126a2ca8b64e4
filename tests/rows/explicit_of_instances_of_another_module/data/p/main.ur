val t = show A.Red
val u = show 1
val s : show int = mkShow (fn (n : int) => "s")
val v = show 1
