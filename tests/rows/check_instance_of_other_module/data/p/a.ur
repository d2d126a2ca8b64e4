datatype color = Red
val s : show color = mkShow (fn (c : color) => "r")
