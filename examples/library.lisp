; with prelude.lisp
; A library: what is lent, to whom and until which day, and what those pay who are late.

(defclass item ()
  ((title :initarg :title :reader title)
   (borrower :initform nil :accessor borrower)
   (due :accessor due)))

(defclass book (item) ())
(defclass film (item) ())

(defvar *today* 1)
(defvar *debts* '()) ; a list of lists (name amount)

; How many days an item may be kept, and what a day beyond them costs.
(defgeneric days (item))
(defmethod days ((item book)) 28)
(defmethod days ((item film)) 7)

(defgeneric daily-fee (item)
  (:method ((item item)) 1)
  (:method ((item film)) (+ 2 (call-next-method))))

(defun say (&rest things)
  (write-joined things " ")
  (terpri))

(defun debt (name)
  (nth-or 1 (assoc-equal name *debts*) 0))

; Only what is there is lent, and only to those who owe nothing.
(defgeneric lend (item name))
(defmethod lend :around ((item item) name)
  (cond ((borrower item) (say (title item) "is with" (borrower item)))
        ((plusp (debt name)) (say name "owes" (debt name) "and gets nothing"))
        (t (call-next-method))))
(defmethod lend ((item item) name)
  (setf (borrower item) name)
  (setf (due item) (+ *today* (days item)))
  (say name "has" (title item) "until day" (due item)))

(defgeneric give-back (item))
(defmethod give-back :before ((item item))
  (let ((late (max 0 (- *today* (due item)))) (name (borrower item)))
    (when (plusp late)
      (say (title item) "is" late "days late")
      (setq *debts* (put-equal name (+ (debt name) (* late (daily-fee item))) *debts*)))))
(defmethod give-back ((item item))
  (setf (borrower item) nil)
  (slot-makunbound item 'due))

(defmethod comes-before ((order (eql 'by-due)) a b)
  (< (due a) (due b)))

; What is lent, the first that is due in front.
(defun lent (items)
  (let ((left items) (found '()))
    (dotimes (i (length items) (sorted found 'by-due))
      (when (borrower (first left)) (setq found (cons (first left) found)))
      (setq left (rest left)))))

(defvar *emma* (make-instance 'book :title "Emma"))
(defvar *dune* (make-instance 'book :title "Dune"))
(defvar *heat* (make-instance 'film :title "Heat"))

(lend *emma* "Ann")
(lend *heat* "Bob")
(lend *emma* "Bob")
(setq *today* 5)
(lend *dune* "Cid")
(say "first due:" (title (first (lent (list *dune* *emma* *heat*)))))

(setq *today* 12)
(give-back *heat*)
(lend *heat* "Bob")
(setq *today* 31)
(give-back *emma*)
(say "debts:" *debts* "in all" (sum (list (debt "Ann") (debt "Bob") (debt "Cid"))))
(give-back *emma*)
(lend "a map" "Ann")
