; A list of 100,000 numbers, built by cons and walked by car and cdr.
(let ((numbers nil) (sum 0))
  (dotimes (i 100000)
    (setq numbers (cons i numbers)))
  (dotimes (i (length numbers))
    (setq sum (+ sum (car numbers)))
    (setq numbers (cdr numbers)))
  (princ sum)
  (terpri))
