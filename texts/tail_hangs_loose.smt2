(and (distinct x tail)
     (and (distinct tail sep.nil)
          (ls x tail)))
