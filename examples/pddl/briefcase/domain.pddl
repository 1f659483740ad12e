; Things go to work and back in a briefcase. What lies in it has no place of its own, so that a
; walk needs no effect for each thing.
(define (domain briefcase)
  (:requirements :strips :typing)
  (:types place thing)
  (:constants home - place)
  (:predicates
    (case-at ?p - place)
    (thing-at ?t - thing ?p - place)
    (in-case ?t - thing)
    (door-shut))
  (:action put-in
    :parameters (?t - thing ?p - place)
    :precondition (and (thing-at ?t ?p) (case-at ?p))
    :effect (and (in-case ?t) (not (thing-at ?t ?p))))
  (:action take-out
    :parameters (?t - thing ?p - place)
    :precondition (and (in-case ?t) (case-at ?p))
    :effect (and (thing-at ?t ?p) (not (in-case ?t))))
  (:action walk
    :parameters (?from - place ?to - place)
    :precondition (case-at ?from)
    :effect (and (not (case-at ?from)) (case-at ?to)))
  (:action shut-door
    :precondition (case-at home)
    :effect (door-shut)))
