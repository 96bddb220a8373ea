; 200,000 calls of a generic function with two methods, by the class of one argument.
(defclass shape () ())
(defclass circle (shape) ())
(defgeneric sides (shape))
(defmethod sides ((shape shape)) 0)
(defmethod sides ((shape circle)) 1)

(let ((circle (make-instance 'circle))
      (shape (make-instance 'shape))
      (sum 0))
  (dotimes (i 100000)
    (setq sum (+ sum (sides circle) (sides shape))))
  (princ sum)
  (terpri))
