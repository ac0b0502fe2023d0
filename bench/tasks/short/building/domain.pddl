;; A robot builds towers of blocks on a grid: it climbs and descends one block at a time, and takes blocks from a depot.
(define (domain building)
  (:requirements :strips :typing :negative-preconditions)
  (:types position height)
  (:predicates (high ?p - position ?h - height) (at ?p - position) (holds) (above ?more ?less - height)
    (beside ?p ?q - position) (depot ?p - position) (ground ?h - height))
  (:action walk
    :parameters (?p ?q - position ?h - height)
    :precondition (and (at ?p) (beside ?p ?q) (high ?p ?h) (high ?q ?h))
    :effect (and (at ?q) (not (at ?p))))
  (:action climb
    :parameters (?p ?q - position ?h ?up - height)
    :precondition (and (at ?p) (beside ?p ?q) (high ?p ?h) (high ?q ?up) (above ?up ?h))
    :effect (and (at ?q) (not (at ?p))))
  (:action descend
    :parameters (?p ?q - position ?h ?down - height)
    :precondition (and (at ?p) (beside ?p ?q) (high ?p ?h) (high ?q ?down) (above ?h ?down))
    :effect (and (at ?q) (not (at ?p))))
  (:action put
    :parameters (?p ?q - position ?h ?up - height)
    :precondition (and (at ?p) (beside ?p ?q) (high ?p ?h) (high ?q ?h) (above ?up ?h) (holds) (not (depot ?q)))
    :effect (and (high ?q ?up) (not (high ?q ?h)) (not (holds))))
  (:action lift
    :parameters (?p ?q - position ?h ?up - height)
    :precondition (and (at ?p) (beside ?p ?q) (high ?p ?h) (high ?q ?up) (above ?up ?h) (not (holds)))
    :effect (and (high ?q ?h) (not (high ?q ?up)) (holds)))
  (:action take
    :parameters (?p - position)
    :precondition (and (at ?p) (depot ?p) (not (holds)))
    :effect (holds))
  (:action give
    :parameters (?p - position)
    :precondition (and (at ?p) (depot ?p) (holds))
    :effect (not (holds))))
