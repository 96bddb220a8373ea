; Every value is of a class, and there can be methods on the classes that are there from the start.

(defmethod describe-it ((x integer)) (list 'number x))
(defmethod describe-it ((x symbol)) (list 'symbol x))
(defmethod describe-it ((x list)) (list 'list 'of (length x)))
(defmethod describe-it ((x string)) (list 'text 'of (length x)))

(defun say (x) (princ x) (terpri))

(say (list (describe-it 7) (describe-it 'seven) (describe-it '(7 8)) (describe-it "seven")))
(say (list (class-of 7) (typep 7 'integer) (typep 7 'number) (typep 7 'symbol)))

; NIL is a symbol and a list. Its class precedence list says which of them comes first.
(say (class-precedence-list (class-of nil)))
(say (describe-it nil))
