val main : unit -> transaction page
val shown : list Guests.guest -> transaction page
