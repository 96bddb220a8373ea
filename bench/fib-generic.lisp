; The 25th number of Fibonacci, by a generic function with one method, on T.
(defmethod fib ((n t))
  (if (< n 2)
      n
      (+ (fib (- n 1)) (fib (- n 2)))))

(princ (fib 25))
(terpri)
