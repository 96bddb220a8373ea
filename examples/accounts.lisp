; Accounts: slots with initargs, initforms, defaults and accessors, and methods that change them.

(defclass account ()
  ((owner :initarg :owner :reader owner)
   (balance :initarg :balance :initform 0 :accessor balance)
   (history :initform '() :accessor history))
  (:default-initargs :owner "nobody"))

; A savings account has what an account has, and a rate; it begins with 10.
(defclass savings (account)
  ((rate :initarg :rate :initform 2 :reader rate)
   (balance :initform 10)))

(defmethod note ((a account) entry)
  (setf (history a) (cons entry (history a))))

(defmethod deposit ((a account) amount)
  (note a (list 'in amount))
  (incf (balance a) amount))

(defmethod withdraw ((a account) amount)
  (if (> amount (balance a))
      'refused
      (progn
        (note a (list 'out amount))
        (decf (balance a) amount))))

(defmethod end-year ((a account))
  'nothing)

(defmethod end-year ((a savings))
  (deposit a (floor (* (balance a) (rate a)) 100)))

(defun report (a)
  (princ (owner a))
  (princ " has ")
  (princ (balance a))
  (princ ", after ")
  (princ (reverse (history a)))
  (terpri))

(defvar *ada* (make-instance 'account :owner "Ada" :balance 100))
(defvar *bob* (make-instance 'savings :owner "Bob" :rate 5))

(deposit *ada* 20)
(princ (list (withdraw *ada* 200) (withdraw *ada* 50)))
(terpri)
(deposit *bob* 190)
(princ (list (end-year *ada*) (end-year *bob*)))
(terpri)
(report *ada*)
(report *bob*)
(report (make-instance 'account))

; What an account does not know
(princ (list (slot-exists-p *ada* 'rate) (slot-exists-p *bob* 'rate)))
(slot-value *ada* 'rate)
(rate *ada*)
(slot-makunbound *ada* 'owner)
(report *ada*)
(make-instance 'account :name "Eve")
