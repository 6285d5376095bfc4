(and (ls x sep.nil)
     (sep (pto x x) (= sep.nil sep.nil)))
