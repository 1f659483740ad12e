; Slow lifts go from a floor to the next one; fast lifts skip floors, but a start costs more.
(define (domain elevators)
  (:requirements :strips :typing :action-costs)
  (:types floor person - object slow fast - lift)
  (:predicates
    (next ?low - floor ?high - floor)
    (express ?from - floor ?to - floor)
    (stands ?l - lift ?f - floor)
    (waits ?p - person ?f - floor)
    (rides ?p - person ?l - lift))
  (:functions (total-cost))
  (:action slow-up
    :parameters (?l - slow ?from - floor ?to - floor)
    :precondition (and (stands ?l ?from) (next ?from ?to))
    :effect (and (not (stands ?l ?from)) (stands ?l ?to) (increase (total-cost) 5)))
  (:action slow-down
    :parameters (?l - slow ?from - floor ?to - floor)
    :precondition (and (stands ?l ?from) (next ?to ?from))
    :effect (and (not (stands ?l ?from)) (stands ?l ?to) (increase (total-cost) 3)))
  (:action fast-ride
    :parameters (?l - fast ?from - floor ?to - floor)
    :precondition (and (stands ?l ?from) (express ?from ?to))
    :effect (and (not (stands ?l ?from)) (stands ?l ?to) (increase (total-cost) 8)))
  (:action enter
    :parameters (?p - person ?l - lift ?f - floor)
    :precondition (and (stands ?l ?f) (waits ?p ?f))
    :effect (and (not (waits ?p ?f)) (rides ?p ?l) (increase (total-cost) 1)))
  (:action leave
    :parameters (?p - person ?l - lift ?f - floor)
    :precondition (and (stands ?l ?f) (rides ?p ?l))
    :effect (and (not (rides ?p ?l)) (waits ?p ?f) (increase (total-cost) 1))))
