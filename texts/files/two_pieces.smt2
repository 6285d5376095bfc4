; A list in two pieces, as Astral reads it: every declared constant is named.
(declare-sort Loc 0)
(declare-heap (Loc Loc))
(declare-const x Loc)
(declare-const y Loc)
(declare-const z Loc)
(assert (ls x y))
(assert (sep (not emp) (not emp)))
(check-sat)
