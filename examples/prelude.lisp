; What programs need first, and the language has not: name this file before the program's own. Elements are compared by
; EQUAL. Lists may be long: the functions go along them by dotimes, which takes no depth, and not by calling themselves.

; The list from the first element that is equal to item on, or NIL.
(defun member-equal (item list)
  (let ((left list) (found nil))
    (dotimes (i (length list) found)
      (when (and (not found) (equal item (first left)))
        (setq found left))
      (setq left (rest left)))))

; The place of the first element that is equal to item, counted from 0, or NIL.
(defun position-equal (item list)
  (let ((left list) (place nil))
    (dotimes (i (length list) place)
      (when (and (not place) (equal item (first left)))
        (setq place i))
      (setq left (rest left)))))

; How many elements are equal to item.
(defun count-equal (item list)
  (let ((left list) (count 0))
    (dotimes (i (length list) count)
      (when (equal item (first left))
        (incf count))
      (setq left (rest left)))))

; The list without the elements that are equal to item.
(defun remove-equal (item list)
  (let ((left list) (kept nil))
    (dotimes (i (length list) (reverse kept))
      (unless (equal item (first left))
        (setq kept (cons (first left) kept)))
      (setq left (rest left)))))

; Of a list of lists the first whose first element is equal to key, or NIL.
(defun assoc-equal (key pairs)
  (let ((left pairs) (found nil))
    (dotimes (i (length pairs) found)
      (when (and (not found) (equal key (first (first left))))
        (setq found (first left)))
      (setq left (rest left)))))

; The list of lists with (key value) in front, in place of those that begin with key.
(defun put-equal (key value pairs)
  (let ((left pairs) (kept nil))
    (dotimes (i (length pairs) (cons (list key value) (reverse kept)))
      (unless (equal key (first (first left)))
        (setq kept (cons (first left) kept)))
      (setq left (rest left)))))

; The last element, or NIL.
(defun last1 (list)
  (first (reverse list)))

; The element at place n, counted from 0, or default where the list is shorter.
(defun nth-or (n list default)
  (if (< n (length list)) (nth n list) default))

; The first n elements; all, where there are no more.
(defun take (n list)
  (let ((left list) (taken nil))
    (dotimes (i (min n (length list)) (reverse taken))
      (setq taken (cons (first left) taken) left (rest left)))))

; The list without its first n elements.
(defun drop (n list)
  (let ((left list))
    (dotimes (i (min n (length list)) left)
      (setq left (rest left)))))

; The integers from one on and below the other, in order.
(defun range (from below)
  (let ((numbers nil))
    (dotimes (i (- below from) (reverse numbers))
      (setq numbers (cons (+ from i) numbers)))))

; The sum of a list of integers; 0 of none.
(defun sum (numbers)
  (let ((left numbers) (total 0))
    (dotimes (i (length numbers) total)
      (incf total (first left))
      (setq left (rest left)))))

; The greatest of a list of integers, or NIL of none.
(defun list-max (numbers)
  (let ((left numbers) (greatest (first numbers)))
    (dotimes (i (length numbers) greatest)
      (setq greatest (max greatest (first left)) left (rest left)))))

; Whether a stands before b in an order. A program has a method for each order that it needs, as this one.
(defgeneric comes-before (order a b)
  (:method ((order (eql '<)) a b) (< a b)))

; The elements of two sorted lists, sorted; of a where none comes before the other.
(defun merged (a b order)
  (let ((all nil))
    (dotimes (i (+ (length a) (length b)) (reverse all))
      (if (and b (or (null a) (comes-before order (first b) (first a))))
          (setq all (cons (first b) all) b (rest b))
          (setq all (cons (first a) all) a (rest a))))))

; The list in an order: (sorted '(3 1 2) '<). Elements of which none comes before the other stay as they stood.
; The steps that a form has by default are enough for 2000 elements.
(defun sorted (list order)
  (let ((half (floor (length list) 2)))
    (if (= half 0)
        list
        (merged (sorted (take half list) order) (sorted (drop half list) order) order))))

; Writes the elements with the separator between them.
(defun write-joined (list separator)
  (let ((left list))
    (dotimes (i (length list))
      (when (> i 0) (princ separator))
      (princ (first left))
      (setq left (rest left)))))
