val t = show A.Red
fun main () : transaction page = return <xml><body/></xml>
