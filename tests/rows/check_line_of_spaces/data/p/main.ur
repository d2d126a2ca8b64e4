fun main () : transaction page = return <xml><body/></xml>
