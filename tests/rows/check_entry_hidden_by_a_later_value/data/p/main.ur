fun f () : transaction page = return <xml/>
val f = 1
fun main () : transaction page = return <xml><body/></xml>
