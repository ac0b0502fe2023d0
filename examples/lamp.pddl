; A lamp with one switch.
(define (domain lamp)
  (:predicates (on))
  (:action flip
    :precondition (not (on))
    :effect (on)))
