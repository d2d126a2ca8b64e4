val z = A.x
fun main () : transaction page = return <xml><body/></xml>
