val main : int
