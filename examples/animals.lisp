; A class, two kinds of it, and what each of them says.

(defclass animal () ())
(defclass dog (animal) ())
(defclass cat (animal) ())

(defmethod speak ((x animal)) 'noise)
(defmethod speak ((x dog)) 'woof)

(princ (speak (make-instance 'dog)))
(princ " ")
(princ (speak (make-instance 'cat)))
(princ "
")
