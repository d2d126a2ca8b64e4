datatype color = Red | Green
