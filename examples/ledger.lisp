; A ledger whose classes change while its accounts are there. An account is updated when its slots are next used.

(defun say (&rest things)
  (dotimes (i (length things))
    (princ (nth i things)))
  (terpri))

(defclass account ()
  ((owner :initarg :owner :reader owner)
   (euros :initarg :euros :initform 0 :accessor euros)
   (rate :allocation :class :initform 2 :accessor rate)))

(defvar *ada* (make-instance 'account :owner "Ada" :euros 100))
(defvar *bob* (make-instance 'account :owner "Bob" :euros 250))

(setf (rate *ada*) 3)
(say (owner *bob*) " has " (euros *bob*) " euros at " (rate *bob*))

; From now on an account has cents and a currency, and a rate of its own. What becomes of its euros is said once.
(defmethod update-instance-for-redefined-class :after ((a account) added discarded values &key)
  (when (equal discarded '(euros))
    (setf (cents a) (* 100 (second values))))
  (say "  [" (owner a) " gets " added " for " values "]"))

(defclass account ()
  ((owner :initarg :owner :reader owner)
   (cents :initarg :cents :initform 0 :accessor cents)
   (currency :initarg :currency :initform 'eur :reader currency)
   (rate :initform 1 :accessor rate)))

(defmethod show ((a account))
  (say (owner a) " has " (cents a) " cents, " (currency a) ", at " (rate a)))

(say "The accounts are " *ada* " and " *bob*)
(show *ada*)
(setf (rate *ada*) 5)
(show *ada*)
(show *bob*)
(euros *bob*)

; Bob's account becomes a savings account. It keeps what both classes have, and is given its term.
(defclass savings (account)
  ((term :initarg :term :initform 12 :reader term)
   (bonus :initform 7 :reader bonus)))

(defmethod show :after ((a savings))
  (say "  for " (term a) " months, with a bonus of " (bonus a)))

(defmethod update-instance-for-different-class :before ((old account) (new savings) &key)
  (say "  [" (owner old) " goes from " old " to " new "]"))

(change-class *bob* 'savings :term 24)
(show *bob*)
(say (list (typep *bob* 'account) (slot-exists-p *ada* 'term)))

; A new account begins as the class is now, and a definition that is refused changes nothing.
(show (make-instance 'account :owner "Eve" :currency 'usd))
(defclass account (vault) ())
(show *ada*)
