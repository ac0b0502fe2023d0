; Tiles on a board: one that lies beside the gap may slide into it.
(define (domain puzzle)
  (:requirements :strips :typing)
  (:types tile cell)
  (:predicates (beside ?a ?b - cell) (at ?t - tile ?a - cell) (gap ?a - cell))
  (:action slide
    :parameters (?t - tile ?from ?to - cell)
    :precondition (and (beside ?from ?to) (at ?t ?from) (gap ?to))
    :effect (and (at ?t ?to) (gap ?from) (not (at ?t ?from)) (not (gap ?to)))))
