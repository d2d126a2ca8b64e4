val f : t ::: Type -> (t -> t) -> [[A] ~ [B]] => {A : t}
val g : $)
