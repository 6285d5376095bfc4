(and (distinct x sep.nil)
     (and (distinct x y)
          (sep (ls x sep.nil) (pto y sep.nil))))
