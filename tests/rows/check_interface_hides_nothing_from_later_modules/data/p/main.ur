val z = A.x + A.y
fun main () : transaction page = return <xml><body/></xml>
