fun f () : transaction page = return <xml/>
fun main () : transaction page = return <xml><body><a link={f ()}>x</a></body></xml>
fun f () : transaction page = return <xml/>
