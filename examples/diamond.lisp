; A class with several superclasses. Its class precedence list puts each class before its superclasses, and these in the
; order in which they are written.

(defclass boat () ())
(defclass sailing-boat (boat) ())
(defclass motor-boat (boat) ())
(defclass motor-sailer (sailing-boat motor-boat) ())

(defun say (x) (princ x) (terpri))

(say (class-precedence-list (find-class 'motor-sailer)))

; The method of the class that stands first in the list is called.
(defmethod power ((x boat)) 'oars)
(defmethod power ((x sailing-boat)) 'wind)
(defmethod power ((x motor-boat)) 'diesel)

(say (power (make-instance 'boat)))
(say (power (make-instance 'motor-boat)))
(say (power (make-instance 'motor-sailer)))

; Two arguments: the leftmost on which the methods differ decides.
(defmethod gives-way ((x boat) (y boat)) 'neither)
(defmethod gives-way ((x motor-boat) (y sailing-boat)) 'first)
(defmethod gives-way ((x sailing-boat) (y motor-boat)) 'second)

(say (gives-way (make-instance 'motor-boat) (make-instance 'sailing-boat)))
(say (gives-way (make-instance 'motor-sailer) (make-instance 'motor-sailer)))

; A superclass may be named before it is defined. Until then there are no instances.
(defclass ketch (two-master) ())
(make-instance 'ketch)

(defclass two-master (sailing-boat) ())
(say (make-instance 'ketch))
(say (power (make-instance 'ketch)))

; No list has sailing-boat both before and after motor-boat.
(defclass hybrid (motor-boat sailing-boat) ())
(defclass puzzle (motor-sailer hybrid) ())
