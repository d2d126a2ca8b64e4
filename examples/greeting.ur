(* The smallest page worth reading:  ./urweb page < examples/greeting.ur > greeting.html *)
fun main () : transaction page = return <xml><body>
  <h1>Hello from urweb</h1>
  <p>This page was read from a module of six lines, and every byte of it was written by a proved program.</p>
  <p title="A tip stands in a title">Rest the pointer here.</p>
</body></xml>
