val t = show A.j
