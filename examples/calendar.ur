(* The calendar of a month:  ./urweb page < examples/calendar.ur > calendar.html *)

fun is_leap (year : int) : bool = year % 4 = 0 && (year % 100 <> 0 || year % 400 = 0)

fun days_in (year : int) (month : int) : int =
  case month of
    2 => if is_leap year then 29 else 28
  | 4 => 30
  | 6 => 30
  | 9 => 30
  | 11 => 30
  | _ => 31

(* The day of the week of a month's first day; Monday is 0. *)
fun first_weekday (year : int) (month : int) : int =
  let
    val shifted = if month < 3 then month + 12 else month
    val year = if month < 3 then year - 1 else year
  in
    (1 + 13 * (shifted + 1) / 5 + year + year / 4 - year / 100 + year / 400 + 5) % 7
  end

fun cells (day : int) (last : int) (left : int) : xtr =
  if left = 0 then <xml/>
  else <xml>{if day < 1 || day > last then <xml><td/></xml> else <xml><td>{[day]}</td></xml>}{cells (day + 1) last (left - 1)}</xml>

fun weeks (day : int) (last : int) : xtable =
  if day > last then <xml/>
  else <xml>
      <tr>{cells day last 7}</tr>
      {weeks (day + 7) last}
    </xml>

fun month (year : int) (number : int) : transaction page = return <xml>
  <head><title>{[year]}-{[number]}</title></head>
  <body>
    <h1>{[year]}-{[number]}</h1>
    <table border={1}>
      <tr><th>Mo</th><th>Tu</th><th>We</th><th>Th</th><th>Fr</th><th>Sa</th><th>Su</th></tr>
      {weeks (1 - first_weekday year number) (days_in year number)}
    </table>
    <p>
      <a link={if_before year number}>before</a>
      <a link={if_after year number}>after</a>
    </p>
  </body>
</xml>
and if_before (year : int) (number : int) : transaction page =
  if number = 1 then month (year - 1) 12 else month year (number - 1)
and if_after (year : int) (number : int) : transaction page =
  if number = 12 then month (year + 1) 1 else month year (number + 1)

fun main () : transaction page = month 2026 11
