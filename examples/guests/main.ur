(* The pages of a guest list. Nothing is stored: the address of each page says who is invited, and who has answered
   what, so that a link to a page is the list as it was then. *)

val garden : url = bless "https://www.openstreetmap.org/?mlat=48.86&mlon=2.35"

fun row (l : list Guests.guest) (g : Guests.guest) : xtable = <xml>
    <tr>
      <td>{[g.Name]}{if g.Friend then <xml> and a friend</xml> else <xml/>}</td>
      <td>{[g.Answer]}</td>
      <td>
        <a link={shown (Guests.answered g.Name Guests.Yes l)}>yes</a>
        <a link={shown (Guests.answered g.Name Guests.No l)}>no</a>
        <a link={shown (Guests.without g.Name l)}>remove</a>
      </td>
    </tr>
  </xml>
and rows (l : list Guests.guest) (left : list Guests.guest) : xtable =
  case left of
    [] => <xml/>
  | g :: rest => <xml>{row l g}{rows l rest}</xml>
and shown (l : list Guests.guest) : transaction page = return <xml>
  <head><title>The garden party</title></head>
  <body>
    <h1>The garden party</h1>
    <table border={1}>
      <tr><th>Guest</th><th>Comes</th><th>Change</th></tr>
      {rows l l}
    </table>
    <p>Seats: {[Guests.taken l]}. <a href={garden}>Where it is</a></p>
    <form>
      <p><textbox{#Name} size={20}/> with a friend <checkbox{#Friend}/></p>
      <submit action={invite l} value="Invite"/>
    </form>
    <p><a link={main ()}>An empty list</a></p>
  </body>
</xml>
and invite (l : list Guests.guest) (r : {Name : string, Friend : bool}) : transaction page =
  if r.Name = "" || Guests.is_on r.Name l then return <xml><body>
    <p>There has to be a name that isn't on the list.</p>
    <p><a link={shown l}>Back</a></p>
  </body></xml>
  else shown (Guests.invited r.Name r.Friend :: l)
and main () : transaction page = shown []
