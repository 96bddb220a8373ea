; A short string written 100,000 times.
(dotimes (i 100000)
  (princ "a short string "))
(terpri)
