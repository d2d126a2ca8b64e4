(* Guests, their answers, and lists of guests. *)

datatype answer = Open | Yes | No

val show_answer : show answer = mkShow (fn a => case a of Open => "not yet" | Yes => "yes" | No => "no")
val eq_answer : eq answer = mkEq (fn a b => show a = show b)

type guest = {Name : string, Friend : bool, Answer : answer}

fun invited (name : string) (friend : bool) : guest = {Name = name, Friend = friend, Answer = Open}

(* How many seats a guest needs, and all that have said yes. *)
fun seats (g : guest) : int = if g.Friend then 2 else 1

fun taken (l : list guest) : int =
  case l of
    [] => 0
  | g :: rest => (if g.Answer = Yes then seats g else 0) + taken rest

fun is_on (name : string) (l : list guest) : bool =
  case l of [] => False | g :: rest => g.Name = name || is_on name rest

(* The list with another answer of a guest, and the list without the guest. *)
fun answered (name : string) (a : answer) (l : list guest) : list guest =
  case l of
    [] => []
  | g :: rest =>
    (if g.Name = name then g -- #Answer ++ {Answer = a} else g) :: answered name a rest

fun without (name : string) (l : list guest) : list guest =
  case l of
    [] => []
  | g :: rest => if g.Name = name then rest else g :: without name rest
