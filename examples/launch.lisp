; A method combination of the program's own, in which a call goes in stages: checks that may stop it, the work, and what
; is told of it. Each class adds to the stages that it cares for.

(define-method-combination stages (&optional (order :most-specific-last))
  ((around (:around))
   (checks (check . *) :order order)
   (work () :required t)
   (news (tell)))
  (let ((form `(if (and ,@(mapcar (lambda (m) `(call-method ,m)) checks))
                   (multiple-value-prog1
                       (call-method ,(first work) ,(rest work))
                     ,@(mapcar (lambda (m) `(call-method ,m)) news))
                   'stopped)))
    (if around
        `(call-method ,(first around) (,@(rest around) (make-method ,form)))
        form)))

(defclass rocket ()
  ((name :initarg :name :reader name)
   (fuel :initarg :fuel :reader fuel)))

(defclass crewed-rocket (rocket)
  ((crew :initarg :crew :initform '() :reader crew)))

(defgeneric launch (rocket)
  (:method-combination stages))

(defun say (&rest things)
  (dotimes (i (length things))
    (princ (nth i things)))
  (terpri))

; The pattern (check . *) takes each method whose first qualifier is check, whatever follows it.
(defmethod launch check fuel ((r rocket))
  (say "  fuel: " (fuel r))
  (>= (fuel r) 90))

(defmethod launch check crew ((r crewed-rocket))
  (say "  crew: " (crew r))
  (crew r))

(defmethod launch ((r rocket))
  (say "  " (name r) " lifts off")
  'up)

(defmethod launch ((r crewed-rocket))
  (say "  the hatch is closed")
  (call-next-method))

(defmethod launch tell ((r crewed-rocket))
  (say "  " (first (crew r)) " waves"))

; A method around the others gets the result of all the stages as that of its next method.
(defmethod launch :around ((r rocket))
  (say (name r) ":")
  (let ((result (call-next-method)))
    (say "  " result)
    result))

(defvar *sparrow* (make-instance 'rocket :name "Sparrow" :fuel 95))
(defvar *heron* (make-instance 'crewed-rocket :name "Heron" :fuel 97 :crew '("Mae" "Yuri")))
(defvar *owl* (make-instance 'crewed-rocket :name "Owl" :fuel 40 :crew '("Sally")))
(defvar *wren* (make-instance 'crewed-rocket :name "Wren" :fuel 99))

(launch *sparrow*)
(launch *heron*)
(launch *owl*)
(launch *wren*)

; The same combination for another function, which has the crew checked first.
(defgeneric rehearse (rocket)
  (:method-combination stages :most-specific-first)
  (:method check ((r rocket)) (say "  fuel: " (fuel r)) t)
  (:method check ((r crewed-rocket)) (say "  crew: " (crew r)) t)
  (:method ((r rocket)) 'ready))

(say (rehearse *heron*))

; Two methods of one stage on the same class would stand in no order, and a call without any work has nothing to do.
(defmethod rehearse check again ((r rocket)) t)
(rehearse *sparrow*)

(defgeneric land (rocket)
  (:method-combination stages)
  (:method check ((r rocket)) t))
(land *sparrow*)
