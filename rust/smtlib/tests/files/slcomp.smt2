(set-logic QF_SHLS)

(set-info :source |
A file in the form of SL-COMP's; (not one of its own).
|)
(set-info :smt-lib-version 2.6)
(set-info :category "crafted")
(set-info :status sat)

; Sorts for locations, one by cell sort
(declare-sort RefSll_t 0)

; Types of cells in the heap
(declare-datatypes
	((Sll_t 0))
	(((c_Sll_t (next RefSll_t)))
	)
)

; Type of heap
(declare-heap (RefSll_t Sll_t)
)

(define-fun-rec ls ((in RefSll_t) (out RefSll_t)) Bool
	(or
		(and
			(= in out)
			(_ emp RefSll_t Sll_t)
		)
		(exists ((u RefSll_t))
			(and
				(distinct in out)
				(sep
					(pto in (c_Sll_t u))
					(ls u out)
				)
			)
		)
	)
)

(check-sat)
(declare-const x_emp RefSll_t)
(declare-const y_long_name RefSll_t)
(assert
	(and
		(= (as nil RefSll_t) (as nil RefSll_t))
		(sep
			(pto x_emp (c_Sll_t y_long_name))
			(ls y_long_name (as nil RefSll_t))
		)
	)
)
(assert
	(not
		(ls x_emp (as nil RefSll_t))
	)
)
(check-sat)
(get-model)
(exit)
