; Shapes: a count that all of them share, slots that a body calls by their names, and an area that is worked out when it is
; first asked for.

(defclass shape ()
  ((name :initarg :name :reader name)
   (area :accessor area)
   (made :allocation :class :initform 0 :accessor made)))

(defclass rectangle (shape)
  ((width :initarg :width)
   (height :initarg :height))
  (:default-initargs :name "rectangle"))

(defclass square (rectangle)
  ((side :initarg :side))
  (:default-initargs :name "square"))

(defmethod compute-area ((r rectangle))
  (with-slots (width height) r
    (* width height)))

(defmethod compute-area ((s square))
  (with-slots (side) s
    (* side side)))

; An area that is not known yet is computed, and kept.
(defmethod slot-unbound (class (s shape) slot)
  (princ "(computed) ")
  (setf (slot-value s slot) (compute-area s)))

(defmethod grow ((r rectangle) times)
  (with-slots (width height) r
    (setq width (* times width))
    (setf height (* times height)))
  (slot-makunbound r 'area))

(defun counted (shape)
  (incf (made shape))
  shape)

(defun report (s)
  (princ (name s))
  (princ " of area ")
  (princ (area s))
  (terpri))

(defvar *a* (counted (make-instance 'rectangle :width 3 :height 4)))
(defvar *b* (counted (make-instance 'square :side 5)))
(report *a*)
(report *b*)
(report *a*)
(princ (list (made *a*) (made *b*)))
(terpri)

(grow *a* 2)
(report *a*)

; Initialized again: a new width, and the old height
(slot-makunbound (reinitialize-instance *a* :width 1) 'area)
(report *a*)
(reinitialize-instance *a* :depth 2)
