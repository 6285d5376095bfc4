;; Declaration of location sort. Currently fixed to this form by Astral.
(declare-sort Loc 0)

;; Declaration of heap sort. Currently fixed to this form by Astral.
(declare-heap (Loc Loc))

;; Declaration of location variables
(declare-const x Loc)
(declare-const y Loc)
(declare-const z Loc)

;; Input formula
(assert (ls x y))

(assert
  (sep
    (not emp)
    (not emp)
    (not emp)
  )
)

(check-sat)
