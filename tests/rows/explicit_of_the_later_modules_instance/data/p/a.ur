val i : show int = mkShow (fn n => "a")
