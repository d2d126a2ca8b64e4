val s : show Colors.color = mkShow (fn c => case c of Colors.Red => "red" | _ => "other")
