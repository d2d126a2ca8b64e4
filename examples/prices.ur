(* A price list with a total:  ./urweb page < examples/prices.ur > prices.html *)

type item = {Name : string, Cents : int, Count : int}

val basket : list item =
  {Name = "Tea, green", Cents = 450, Count = 2}
  :: {Name = "Bread & butter", Cents = 325, Count = 1}
  :: {Name = "Apples <red>", Cents = 40, Count = 12}
  :: []

fun two_digits (n : int) : string = if n < 10 then "0" ^ show n else show n

fun price (cents : int) : string = show (cents / 100) ^ "." ^ two_digits (cents % 100)

fun total (items : list item) : int =
  case items of
    [] => 0
  | item :: rest => item.Cents * item.Count + total rest

fun rows (items : list item) : xtable =
  case items of
    [] => <xml/>
  | item :: rest => <xml>
      <tr><td>{[item.Name]}</td><td>{[item.Count]}</td><td>{[price (item.Cents * item.Count)]}</td></tr>
      {rows rest}
    </xml>

fun main () : transaction page = return <xml>
  <head><title>Price list</title></head>
  <body>
    <h1>Price list</h1>
    <table border={1}>
      <tr><th>Item</th><th>Count</th><th>Price</th></tr>
      {rows basket}
    </table>
    <p>Together: <b>{[price (total basket)]}</b></p>
  </body>
</xml>
