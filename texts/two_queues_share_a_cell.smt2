(and (distinct x y)
     (sep (ls x z)
          (sep (ls y z) (pto z sep.nil))))
