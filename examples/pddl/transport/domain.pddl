; Trucks carry parcels along roads. A long road costs more than two short ones, and to cross the
; bridge costs the toll. An effect can't look up a road's length, so each length has an action.
(define (domain transport)
  (:requirements :strips :typing :action-costs)
  (:types place truck parcel)
  (:predicates
    (short ?from - place ?to - place)
    (long ?from - place ?to - place)
    (bridge ?from - place ?to - place)
    (parked ?t - truck ?where - place)
    (lies ?p - parcel ?where - place)
    (inside ?p - parcel ?t - truck))
  (:functions (total-cost) - number)
  (:action drive-short
    :parameters (?t - truck ?from - place ?to - place)
    :precondition (and (parked ?t ?from) (short ?from ?to))
    :effect (and (not (parked ?t ?from)) (parked ?t ?to) (increase (total-cost) 4)))
  (:action drive-long
    :parameters (?t - truck ?from - place ?to - place)
    :precondition (and (parked ?t ?from) (long ?from ?to))
    :effect (and (not (parked ?t ?from)) (parked ?t ?to) (increase (total-cost) 9)))
  (:action cross-bridge
    :parameters (?t - truck ?from - place ?to - place)
    :precondition (and (parked ?t ?from) (bridge ?from ?to))
    :effect (and (not (parked ?t ?from)) (parked ?t ?to) (increase (total-cost) 30)))
  (:action load
    :parameters (?p - parcel ?t - truck ?where - place)
    :precondition (and (parked ?t ?where) (lies ?p ?where))
    :effect (and (not (lies ?p ?where)) (inside ?p ?t) (increase (total-cost) 1)))
  (:action unload
    :parameters (?p - parcel ?t - truck ?where - place)
    :precondition (and (parked ?t ?where) (inside ?p ?t))
    :effect (and (not (inside ?p ?t)) (lies ?p ?where) (increase (total-cost) 2))))
