; 400,000 reads and writes of slots, half of them by slot-value and half by an accessor.
(defclass account ()
  ((owner :initform 'nobody)
   (balance :initform 0 :accessor balance)))

(let ((account (make-instance 'account)))
  (dotimes (i 100000)
    (setf (slot-value account 'balance) (+ (slot-value account 'balance) 2))
    (setf (balance account) (+ (balance account) 2)))
  (princ (slot-value account 'balance))
  (terpri))
