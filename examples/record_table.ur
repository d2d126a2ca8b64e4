(* A table over the fields of any record, by a folder:  ./urweb page < examples/record_table.ur > record_table.html *)

fun fields [r :: {Type}] (fl : folder r) (labels : $(map (fn t => string) r)) (shows : $(map show r)) (x : $r) : xtable =
  @fold [fn r :: {Type} => $(map (fn t => string) r) -> $(map show r) -> $r -> xtable]
    (fn [nm :: Name] [t :: Type] [r :: {Type}] [[nm] ~ r]
        (others : $(map (fn t => string) r) -> $(map show r) -> $r -> xtable)
        (labels : $(map (fn t => string) ([nm = t] ++ r)))
        (shows : $(map show ([nm = t] ++ r)))
        (x : $([nm = t] ++ r)) =>
      <xml>
        <tr><th>{[labels.nm]}</th><td>{[@show shows.nm x.nm]}</td></tr>
        {others (labels -- nm) (shows -- nm) (x -- nm)}
      </xml>)
    (fn (labels : {}) (shows : {}) (x : {}) => <xml/>) fl labels shows x

val ada = {Name = "Ada", Born = 1815, Programmer = True}

fun main () : transaction page = return <xml>
  <head><title>A record</title></head>
  <body>
    <h1>A record</h1>
    <table border={1}>
      {fields [[Name = string, Born = int, Programmer = bool]]
        {Name = "Name", Born = "Born in", Programmer = "Wrote programs"}
        {Name = show_string, Born = show_int, Programmer = show_bool}
        ada}
    </table>
  </body>
</xml>
