val z = A.y
