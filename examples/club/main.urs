val main : unit -> transaction page
val rules : unit -> transaction page
