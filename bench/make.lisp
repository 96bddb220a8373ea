; 60,000 instances of three slots with initargs.
(defclass point ()
  ((x :initarg :x)
   (y :initarg :y)
   (z :initarg :z)))

(let ((point nil))
  (dotimes (i 60000)
    (setq point (make-instance 'point :x i :y 2 :z 3)))
  (princ (list (slot-value point 'x) (slot-value point 'z)))
  (terpri))
