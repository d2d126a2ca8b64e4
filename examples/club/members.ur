(* Who is in the club, and how a member is shown. *)

datatype rank = Guest | Member of int

type person = {Name : string, Rank : rank}

val all : list person =
  {Name = "Ada", Rank = Member 1815}
  :: {Name = "Charles <B>", Rank = Guest}
  :: []

fun told (r : rank) : string =
  case r of
    Guest => "a guest"
  | Member year => "a member since " ^ show year

fun item (p : person) : xbody = <xml><li>{[p.Name]}, {[told p.Rank]}</li></xml>

fun items (l : list person) : xbody =
  case l of
    [] => <xml/>
  | p :: rest => <xml>{item p}{items rest}</xml>
