val t = show 1
