; Trucks drive within a city, airplanes fly between airports, and both carry packages.
(define (domain logistics)
  (:requirements :strips :typing)
  (:types truck airplane - vehicle
          package vehicle - movable
          airport location - place
          movable place city)
  (:predicates (in-city ?p - place ?c - city) (at ?m - movable ?p - place)
               (in ?p - package ?v - vehicle))
  (:action load-truck
    :parameters (?p - package ?t - truck ?at - place)
    :precondition (and (at ?t ?at) (at ?p ?at))
    :effect (and (in ?p ?t) (not (at ?p ?at))))
  (:action load-airplane
    :parameters (?p - package ?a - airplane ?at - place)
    :precondition (and (at ?p ?at) (at ?a ?at))
    :effect (and (in ?p ?a) (not (at ?p ?at))))
  (:action unload-truck
    :parameters (?p - package ?t - truck ?at - place)
    :precondition (and (at ?t ?at) (in ?p ?t))
    :effect (and (at ?p ?at) (not (in ?p ?t))))
  (:action unload-airplane
    :parameters (?p - package ?a - airplane ?at - place)
    :precondition (and (in ?p ?a) (at ?a ?at))
    :effect (and (at ?p ?at) (not (in ?p ?a))))
  (:action drive-truck
    :parameters (?t - truck ?from - place ?to - place ?c - city)
    :precondition (and (at ?t ?from) (in-city ?from ?c) (in-city ?to ?c))
    :effect (and (at ?t ?to) (not (at ?t ?from))))
  (:action fly-airplane
    :parameters (?a - airplane ?from - airport ?to - airport)
    :precondition (at ?a ?from)
    :effect (and (at ?a ?to) (not (at ?a ?from)))))
