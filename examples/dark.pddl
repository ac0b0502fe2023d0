; The lamp is out, and has to be on.
(define (problem dark)
  (:domain lamp)
  (:init)
  (:goal (on)))
