(pto x x)
