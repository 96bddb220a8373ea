; Rock, paper, scissors: both arguments together choose the method.

(defclass hand () ())
(defclass rock (hand) ())
(defclass paper (hand) ())
(defclass scissors (hand) ())

(defmethod play ((x hand) (y hand)) "nobody wins")
(defmethod play ((x rock) (y scissors)) "rock breaks scissors")
(defmethod play ((x paper) (y rock)) "paper wraps rock")
(defmethod play ((x scissors) (y paper)) "scissors cut paper")

(defmethod show (x y)
  (princ (play x y))
  (princ "
"))

(show (make-instance 'paper) (make-instance 'rock))
(show (make-instance 'rock) (make-instance 'scissors))
(show (make-instance 'rock) (make-instance 'paper))
