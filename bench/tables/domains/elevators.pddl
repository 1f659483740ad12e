; Slow lifts stop at each floor; fast lifts stop at each fourth one, and jump from stop to stop. A
; lift holds two passengers. Floors are named as counts of passengers are.
(define (domain elevators-cost)
  (:requirements :strips :typing :action-costs)
  (:types slow-elevator fast-elevator - elevator
          elevator passenger count)
  (:predicates (passenger-at ?p - passenger ?f - count) (boarded ?p - passenger ?l - elevator)
               (lift-at ?l - elevator ?f - count) (reachable ?l - elevator ?f - count)
               (passengers ?l - elevator ?n - count) (can-hold ?l - elevator ?n - count)
               (next ?low - count ?high - count) (jump ?low - count ?high - count))
  (:functions (total-cost) - number)
  (:action up-slow
    :parameters (?l - slow-elevator ?from - count ?to - count)
    :precondition (and (lift-at ?l ?from) (next ?from ?to) (reachable ?l ?to))
    :effect (and (lift-at ?l ?to) (not (lift-at ?l ?from)) (increase (total-cost) 6)))
  (:action down-slow
    :parameters (?l - slow-elevator ?from - count ?to - count)
    :precondition (and (lift-at ?l ?from) (next ?to ?from) (reachable ?l ?to))
    :effect (and (lift-at ?l ?to) (not (lift-at ?l ?from)) (increase (total-cost) 6)))
  (:action up-fast
    :parameters (?l - fast-elevator ?from - count ?to - count)
    :precondition (and (lift-at ?l ?from) (jump ?from ?to) (reachable ?l ?to))
    :effect (and (lift-at ?l ?to) (not (lift-at ?l ?from)) (increase (total-cost) 11)))
  (:action down-fast
    :parameters (?l - fast-elevator ?from - count ?to - count)
    :precondition (and (lift-at ?l ?from) (jump ?to ?from) (reachable ?l ?to))
    :effect (and (lift-at ?l ?to) (not (lift-at ?l ?from)) (increase (total-cost) 11)))
  (:action board
    :parameters (?p - passenger ?l - elevator ?f - count ?n - count ?more - count)
    :precondition (and (lift-at ?l ?f) (passenger-at ?p ?f) (passengers ?l ?n) (next ?n ?more)
                       (can-hold ?l ?more))
    :effect (and (not (passenger-at ?p ?f)) (boarded ?p ?l) (not (passengers ?l ?n))
                 (passengers ?l ?more) (increase (total-cost) 1)))
  (:action leave
    :parameters (?p - passenger ?l - elevator ?f - count ?n - count ?less - count)
    :precondition (and (lift-at ?l ?f) (boarded ?p ?l) (passengers ?l ?n) (next ?less ?n))
    :effect (and (passenger-at ?p ?f) (not (boarded ?p ?l)) (not (passengers ?l ?n))
                 (passengers ?l ?less) (increase (total-cost) 1))))
