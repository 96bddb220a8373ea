; with prelude.lisp
; Every class of a parcel has its say: methods that are not chosen from but combined, by +, AND and APPEND, and by a
; combination of the program's own.

(defclass parcel ()
  ((grams :initarg :grams :reader grams)
   (country :initarg :country :initform 'home :reader country)))

(defclass glass (parcel) ())
(defclass express (parcel) ())
(defclass express-glass (express glass) ())

; The price is the sum of what each class asks for.
(defgeneric price (parcel)
  (:method-combination +))

(defmethod price + ((p parcel)) (+ 200 (floor (grams p) 10)))
(defmethod price + ((p glass)) 150)
(defmethod price + ((p express)) 400)

; A method around the others sees the whole sum.
(defmethod price :around ((p parcel))
  (if (eq (country p) 'home)
      (call-next-method)
      (* 2 (call-next-method))))

; A parcel is taken where no class says no. The most specific class is asked first, and none after one that says no.
(defgeneric taken-p (parcel)
  (:method-combination and))

(defun refuse (why)
  (princ "refused: ") (princ why) (terpri)
  nil)

(defmethod taken-p and ((p parcel))
  (or (<= (grams p) 20000) (refuse "heavier than 20 kg")))
(defmethod taken-p and ((p glass))
  (or (eq (country p) 'home) (refuse "no glass goes abroad")))
(defmethod taken-p and ((p express))
  (or (<= (grams p) 5000) (refuse "too heavy for the night train")))

; What is stuck on it, what holds for all parcels in front.
(defgeneric labels-of (parcel)
  (:method-combination append :most-specific-last))

(defmethod labels-of append ((p parcel)) (list (grams p) 'grams))
(defmethod labels-of append ((p glass)) '(fragile))
(defmethod labels-of append ((p express)) '(by night train))

; A combination of our own: the function NOTES gets what all methods give, and leaves out those that have nothing to
; say.
(defun notes (&rest texts)
  (remove-equal nil texts))

(define-method-combination notes)

(defgeneric advice (parcel)
  (:method-combination notes))

(defmethod advice notes ((p parcel))
  (if (> (grams p) 10000) "let two people carry it" nil))
(defmethod advice notes ((p glass)) "wrap it twice")
(defmethod advice notes ((p express))
  (if (eq (country p) 'home) "bring it before six" "bring it before four"))

(defun send (p)
  (when (taken-p p)
    (write-joined (labels-of p) " ") (princ ", ") (princ (price p))
    (dotimes (i (length (advice p)))
      (princ ", ") (princ (nth i (advice p))))
    (terpri)))

(send (make-instance 'parcel :grams 1500))
(send (make-instance 'parcel :grams 12000 :country 'norway))
(send (make-instance 'express-glass :grams 800))
(send (make-instance 'express :grams 800 :country 'norway))
(send (make-instance 'express-glass :grams 800 :country 'norway))
(send (make-instance 'express-glass :grams 9000 :country 'norway))
