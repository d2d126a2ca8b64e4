(* The club's pages. *)

fun main () : transaction page = return <xml>
  <head><title>The club</title></head>
  <body>
    <ul>{Members.items Members.all}</ul>
    <p><a link={rules ()}>Rules</a></p>
  </body>
</xml>
and rules () : transaction page = return <xml><body>
  <p>Be kind. <a link={main ()}>Back</a></p>
</body></xml>
