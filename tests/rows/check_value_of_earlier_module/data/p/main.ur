val y : int = A.x + 1
fun main () : transaction page = return <xml><body/></xml>
