(sep (pto x y) (ls y x))
