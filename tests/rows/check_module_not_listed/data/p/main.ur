val y = A.x val z = B.x
