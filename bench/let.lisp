; A let of two variables in each of 300,000 turns.
(let ((sum 0))
  (dotimes (i 300000)
    (let ((digit (mod i 10)) (parity (mod i 2)))
      (setq sum (+ sum digit parity))))
  (princ sum)
  (terpri))
