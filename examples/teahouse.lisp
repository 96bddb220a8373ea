; What a call may leave out: rest, optional and keyword parameters.

; Any number of things on a line: &rest makes a list of them.
(defun say (&rest things)
  (dotimes (i (length things))
    (princ (nth i things)))
  (terpri))

; One cup at 3, where the call does not say otherwise.
(defun tea (&optional (cups 1) (price 3))
  (* cups price))

(say "one cup: " (tea))
(say "four cups: " (tea 4))
(say "four large cups: " (tea 4 5))

; Named in the call, and in any order. The default of tip is worked out from amount.
(defun bill (amount &key (tip (floor amount 10)) (guests 1))
  (say amount " and a tip of " tip ": " (floor (+ amount tip) guests) " each"))

(bill 40)
(bill 40 :guests 2)
(bill 40 :guests 4 :tip 0)

; A name that bill does not have.
(bill 40 :guest 2)
