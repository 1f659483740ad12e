; Aircraft fly people between cities, slowly by one unit of fuel or fast by two.
(define (domain zeno-travel)
  (:requirements :strips :typing)
  (:types aircraft person - movable
          movable city flevel)
  (:predicates (at ?x - movable ?c - city) (in ?p - person ?a - aircraft)
               (fuel-level ?a - aircraft ?l - flevel) (next ?low - flevel ?high - flevel))
  (:action board
    :parameters (?p - person ?a - aircraft ?c - city)
    :precondition (and (at ?p ?c) (at ?a ?c))
    :effect (and (not (at ?p ?c)) (in ?p ?a)))
  (:action debark
    :parameters (?p - person ?a - aircraft ?c - city)
    :precondition (and (in ?p ?a) (at ?a ?c))
    :effect (and (not (in ?p ?a)) (at ?p ?c)))
  (:action fly
    :parameters (?a - aircraft ?from - city ?to - city ?high - flevel ?low - flevel)
    :precondition (and (at ?a ?from) (fuel-level ?a ?high) (next ?low ?high))
    :effect (and (not (at ?a ?from)) (at ?a ?to)
                 (not (fuel-level ?a ?high)) (fuel-level ?a ?low)))
  (:action zoom
    :parameters (?a - aircraft ?from - city ?to - city ?high - flevel ?mid - flevel ?low - flevel)
    :precondition (and (at ?a ?from) (fuel-level ?a ?high) (next ?mid ?high) (next ?low ?mid))
    :effect (and (not (at ?a ?from)) (at ?a ?to)
                 (not (fuel-level ?a ?high)) (fuel-level ?a ?low)))
  (:action refuel
    :parameters (?a - aircraft ?c - city ?low - flevel ?high - flevel)
    :precondition (and (at ?a ?c) (fuel-level ?a ?low) (next ?low ?high))
    :effect (and (fuel-level ?a ?high) (not (fuel-level ?a ?low)))))
