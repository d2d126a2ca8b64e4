(* Pages put together from parts, with links between them:  ./urweb page < examples/parts.ur > parts.html *)

type story = {Title : string, Words : string}

fun story_at (n : int) : option story =
  case n of
    1 => Some {Title = "The first story", Words = "It was a dark & stormy night."}
  | 2 => Some {Title = "The second story", Words = "1 < 2, they said."}
  | _ => None

fun layout (title : string) (content : xbody) : transaction page = return <xml>
  <head><title>{[title]}</title></head>
  <body>
    <p><a link={main ()}>Home</a> <a link={read 1}>One</a> <a link={read 2}>Two</a></p>
    <h1>{[title]}</h1>
    {content}
  </body>
</xml>
and main () : transaction page = layout "Stories" <xml>
    <ul>
      <li><a link={read 1}>The first story</a></li>
      <li><a link={read 2}>The second story</a></li>
    </ul>
  </xml>
and read (n : int) : transaction page =
  case story_at n of
    None => layout "Nothing here" <xml><p>There is no story {[n]}.</p></xml>
  | Some story => layout story.Title <xml><p>{[story.Words]}</p></xml>
