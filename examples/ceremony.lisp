; Standard method combination: :around methods wrap, :before methods prepare, primary methods do the work and may call
; the next one, :after methods clean up.

(defclass account ()
  ((owner :initarg :owner :reader owner)
   (balance :initarg :balance :initform 0 :accessor balance)))

(defclass checked-account (account)
  ((limit :initarg :limit :initform 0 :reader limit)))

(defclass savings-account (account)
  ((rate :initarg :rate :initform 2 :reader rate)))

(defgeneric withdraw (account amount)
  (:documentation "Takes the amount off the account, and gives the new balance.")
  (:method ((account account) (amount integer))
    (decf (balance account) amount)))

; A method on a class wraps those of its superclasses.
(defmethod withdraw :around ((account checked-account) amount)
  (cond ((> (- (balance account) amount) (- 0 (limit account)))
         (call-next-method))
        (t (princ "refused to ") (princ (owner account)) (terpri)
           (balance account))))

(defmethod withdraw :before ((account account) amount)
  (princ (owner account)) (princ " takes ") (princ amount))

(defmethod withdraw :after ((account account) amount)
  (princ ", which leaves ") (princ (balance account)) (terpri))

; The primary method of a subclass takes a fee, and then does what the account's own method does.
(defmethod withdraw ((account savings-account) amount)
  (call-next-method account (+ amount (rate account))))

(defvar *ann* (make-instance 'checked-account :owner "Ann" :balance 50 :limit 20))
(defvar *bob* (make-instance 'savings-account :owner "Bob" :balance 100))

(withdraw *ann* 60)
(withdraw *ann* 60)
(withdraw *bob* 10)

; An eql specializer makes a method for one object.
(defmethod withdraw :before ((account (eql *bob*)) amount)
  (princ "(the bank greets Bob) "))

(withdraw *bob* 10)

; Keyword arguments of all applicable methods are accepted.
(defgeneric describe-account (account &key))

(defmethod describe-account ((account account) &key (currency "crowns"))
  (princ (owner account)) (princ ": ") (princ (balance account)) (princ " ") (princ currency))

(defmethod describe-account ((account savings-account) &key with-rate)
  (call-next-method)
  (when with-rate (princ " at ") (princ (rate account)) (princ " %"))
  (terpri))

(describe-account *bob* :with-rate t :currency "pounds")
(describe-account *ann* :with-rate t)
