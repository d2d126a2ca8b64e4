val s : show A.color = mkShow (fn (c : A.color) => "r")
