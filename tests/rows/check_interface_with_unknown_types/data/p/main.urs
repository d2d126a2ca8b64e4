val main : nowhere -> M.nothing
