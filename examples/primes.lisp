; The primes below a limit, by trial division.
(defvar *limit* 30)
(defvar *found* nil)

(defun divides (d n) (= (mod n d) 0))

(defun is-prime (n)
  (let ((answer (> n 1)))
    (dotimes (i (- n 2) answer)
      (when (divides (+ i 2) n) (setq answer nil)))))

; A place of the program's own: (setf (found) n) adds to what was found.
(defun found () *found*)
(defun (setf found) (n) (setq *found* (cons n *found*)))

(dotimes (n *limit*)
  (when (is-prime n) (setf (found) n)))

(princ (reverse (found)))
(terpri)
(let ((sum 0) (left (found)))
  (dotimes (i (length left))
    (incf sum (nth i left)))
  (princ (list 'sum sum)))
(terpri)
