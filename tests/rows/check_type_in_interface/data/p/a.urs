con t :: Type
