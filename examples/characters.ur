(* Texts full of what HTML finds special, and of other scripts:
     ./urweb page < examples/characters.ur > characters.html
   Comments (* also nested ones, with <b> and "quotes" *) write nothing. *)
fun main () : transaction page = return <xml><body>
  <h1>&lt;, &gt;, &amp; and &quot;</h1>
  <p title="&amp; in a string is five characters">As entities: 1 &lt; 2, 3 &gt; 2, Tom &amp; Jerry, &quot;quoted&quot;.</p>
  <p>As splices: {["1 < 2, 3 > 2, Tom & Jerry, \"quoted\", a \\ and a tab\there."]}</p>
  <p title={"title=\"<b>\" & more"}>A title with quotes, angle brackets and an ampersand: rest the pointer here.</p>
  <h2>Scripts</h2>
  <ul>
    <li title="Greek">Καλημέρα κόσμε</li>
    <li title="Japanese">こんにちは世界</li>
    <li title="Arabic">مرحبا بالعالم</li>
    <li title="Hindi">नमस्ते दुनिया</li>
    <li title="Emoji, by number">&#128075; &#127757; and &#8364;5</li>
  </ul>
  <p>A brace } is an ordinary character, a comment (* like this one *) is none, and spaces&nbsp;may&nbsp;hold&nbsp;together.</p>
</body></xml>
