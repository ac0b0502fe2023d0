;; Discs on pegs: a disc lies on a greater one or on a peg, and one disc is moved at a time.
(define (domain hanoi)
  (:requirements :strips :typing)
  (:types disc peg - place)
  (:predicates (on ?d - disc ?x - place) (clear ?x - place) (fits ?d - disc ?x - place))
  (:action move
    :parameters (?d - disc ?from ?to - place)
    :precondition (and (on ?d ?from) (clear ?d) (clear ?to) (fits ?d ?to))
    :effect (and (on ?d ?to) (clear ?from) (not (on ?d ?from)) (not (clear ?to)))))
