val c : A.color = Red
