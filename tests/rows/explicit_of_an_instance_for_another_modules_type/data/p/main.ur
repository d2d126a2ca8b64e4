val t = show Colors.Green
