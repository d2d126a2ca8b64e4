val main : unit -> transaction page
type t
