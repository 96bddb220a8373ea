; 200,000 calls of a generic function with methods on objects.
(defgeneric name-of (n))
(defmethod name-of ((n (eql 0))) 1)
(defmethod name-of ((n (eql 1))) 2)
(defmethod name-of ((n integer)) 3)

(let ((sum 0))
  (dotimes (i 100000)
    (setq sum (+ sum (name-of 1) (name-of i))))
  (princ sum)
  (terpri))
