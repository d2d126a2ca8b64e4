(* An article with headings, lists, a quotation and a rule:  ./urweb page < examples/article.ur > article.html *)
fun main () : transaction page = return <xml><body>
  <h1>How a page is made</h1>
  <p>A module is a text. <b>urweb</b> reads it in <em>three steps</em>, and each step is proved.</p>

  <h2>The steps</h2>
  <ol>
    <li>The <strong>lexer</strong> turns the bytes into tokens: <code>fun</code>, <code>main</code>, <code>(</code>, and so on.</li>
    <li>The <strong>reader</strong> finds the one tree that spells these tokens, or says that there is none.</li>
    <li>The <strong>writer</strong> writes the page of that tree, and of no other tree.</li>
  </ol>

  <h2>What that buys you</h2>
  <ul>
    <li>A text stays a text. {["<script>alert(1)</script>"]} shows as you see it here.</li>
    <li>A title stays inside its quotes: <span title={"She said \"<hello>\" & left."}>rest the pointer here</span>.</li>
    <li>A refusal names the byte at which it stands.</li>
  </ul>

  <h3>In the words of the theorem</h3>
  <blockquote>
    Where the program ends with status 0, what it wrote is the page of the very tree that the module spells.
  </blockquote>
  <hr/>
  <p>Lists nest:</p>
  <ul>
    <li>outer
      <ul><li>inner, line one<br/>line two</li></ul>
    </li>
  </ul>
</body></xml>
