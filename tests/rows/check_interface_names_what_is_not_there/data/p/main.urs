val nothing : int
