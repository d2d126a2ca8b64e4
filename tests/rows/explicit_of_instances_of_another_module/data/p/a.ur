datatype color = Red
val s : show color = mkShow (fn (c : color) => "r")
val i : show int = mkShow (fn (n : int) => "i")
