val i : show int = mkShow (fn n => "i")
val j : show int = mkShow (fn n => "j")
val j = 3
