val x : ?
