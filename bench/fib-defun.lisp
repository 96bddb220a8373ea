; The 25th number of Fibonacci, by a function that calls itself.
(defun fib (n)
  (if (< n 2)
      n
      (+ (fib (- n 1)) (fib (- n 2)))))

(princ (fib 25))
(terpri)
