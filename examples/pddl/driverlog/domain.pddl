; Trucks need drivers, who walk along paths; trucks drive along roads and carry packages.
(define (domain driverlog)
  (:requirements :strips :typing)
  (:types driver truck package - movable
          movable place)
  (:predicates
    (road ?a - place ?b - place)
    (path ?a - place ?b - place)
    (at ?m - movable ?p - place)
    (in ?p - package ?t - truck)
    (drives ?d - driver ?t - truck)
    (free ?t - truck))
  (:action walk
    :parameters (?d - driver ?from - place ?to - place)
    :precondition (and (path ?from ?to) (at ?d ?from))
    :effect (and (at ?d ?to) (not (at ?d ?from))))
  (:action mount
    :parameters (?d - driver ?t - truck ?p - place)
    :precondition (and (at ?d ?p) (at ?t ?p) (free ?t))
    :effect (and (drives ?d ?t) (not (at ?d ?p)) (not (free ?t))))
  (:action dismount
    :parameters (?d - driver ?t - truck ?p - place)
    :precondition (and (drives ?d ?t) (at ?t ?p))
    :effect (and (at ?d ?p) (free ?t) (not (drives ?d ?t))))
  (:action drive
    :parameters (?t - truck ?from - place ?to - place ?d - driver)
    :precondition (and (road ?from ?to) (at ?t ?from) (drives ?d ?t))
    :effect (and (at ?t ?to) (not (at ?t ?from))))
  (:action load
    :parameters (?p - package ?t - truck ?at - place)
    :precondition (and (at ?p ?at) (at ?t ?at))
    :effect (and (in ?p ?t) (not (at ?p ?at))))
  (:action unload
    :parameters (?p - package ?t - truck ?at - place)
    :precondition (and (in ?p ?t) (at ?t ?at))
    :effect (and (at ?p ?at) (not (in ?p ?t)))))
