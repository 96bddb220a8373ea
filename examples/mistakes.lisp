; A condition ends its form and is written; the next form goes on.

(greet 5)
(make-instance 'person)

(defclass person () ())
(defmethod greet ((x person)) "hello")

(greet 5)
(princ (greet (make-instance 'person)))
(princ nobody)
