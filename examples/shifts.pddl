; Nurses take the nights of a week, never two nights one after another, and each night one of them.
(define (domain shifts)
  (:requirements :strips :typing :negative-preconditions)
  (:types nurse night)
  (:predicates (next ?n ?m - night) (first ?n - night) (done ?n - night) (took ?p - nurse ?n - night) (ill ?p - nurse ?n - night))
  (:action begin
    :parameters (?p - nurse ?n - night)
    :precondition (and (first ?n) (not (done ?n)) (not (ill ?p ?n)))
    :effect (and (done ?n) (took ?p ?n)))
  (:action take
    :parameters (?p - nurse ?n ?m - night)
    :precondition (and (next ?n ?m) (done ?n) (not (done ?m)) (not (took ?p ?n)) (not (ill ?p ?m)))
    :effect (and (done ?m) (took ?p ?m))))
