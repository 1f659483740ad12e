; Trucks drive within a city, planes fly between airports, and both carry packages.
(define (domain logistics)
  (:requirements :strips :typing)
  (:types truck plane - vehicle
          vehicle package - movable
          airport - place
          movable place city)
  (:predicates
    (at ?m - movable ?p - place)
    (in ?p - package ?v - vehicle)
    (of ?p - place ?c - city))
  (:action drive
    :parameters (?t - truck ?from - place ?to - place ?c - city)
    :precondition (and (at ?t ?from) (of ?from ?c) (of ?to ?c))
    :effect (and (not (at ?t ?from)) (at ?t ?to)))
  (:action fly
    :parameters (?p - plane ?from - airport ?to - airport)
    :precondition (at ?p ?from)
    :effect (and (not (at ?p ?from)) (at ?p ?to)))
  (:action load
    :parameters (?p - package ?v - vehicle ?at - place)
    :precondition (and (at ?p ?at) (at ?v ?at))
    :effect (and (in ?p ?v) (not (at ?p ?at))))
  (:action unload
    :parameters (?p - package ?v - vehicle ?at - place)
    :precondition (and (in ?p ?v) (at ?v ?at))
    :effect (and (at ?p ?at) (not (in ?p ?v)))))
