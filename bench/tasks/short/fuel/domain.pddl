;; Trucks bring parcels along roads; a road takes one unit of fuel, and a place may have some to give.
(define (domain fuel)
  (:requirements :strips :typing)
  (:types truck parcel place level)
  (:predicates (at ?t - truck ?p - place) (lies ?c - parcel ?p - place) (in ?c - parcel ?t - truck) (road ?p ?q - place)
    (tank ?t - truck ?l - level) (next ?less ?more - level) (store ?p - place ?l - level))
  (:action drive
    :parameters (?t - truck ?p ?q - place ?l ?less - level)
    :precondition (and (at ?t ?p) (road ?p ?q) (tank ?t ?l) (next ?less ?l))
    :effect (and (at ?t ?q) (not (at ?t ?p)) (tank ?t ?less) (not (tank ?t ?l))))
  (:action fill
    :parameters (?t - truck ?p - place ?l ?more ?s ?less - level)
    :precondition (and (at ?t ?p) (tank ?t ?l) (next ?l ?more) (store ?p ?s) (next ?less ?s))
    :effect (and (tank ?t ?more) (not (tank ?t ?l)) (store ?p ?less) (not (store ?p ?s))))
  (:action load
    :parameters (?c - parcel ?t - truck ?p - place)
    :precondition (and (at ?t ?p) (lies ?c ?p))
    :effect (and (in ?c ?t) (not (lies ?c ?p))))
  (:action unload
    :parameters (?c - parcel ?t - truck ?p - place)
    :precondition (and (at ?t ?p) (in ?c ?t))
    :effect (and (lies ?c ?p) (not (in ?c ?t)))))
