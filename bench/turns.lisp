; A million turns with arithmetic on a variable.
(let ((number 1))
  (dotimes (i 1000000)
    (setq number (mod (+ (* number 31) i) 65521)))
  (princ number)
  (terpri))
