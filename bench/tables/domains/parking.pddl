; Cars park at curbs, one at the curb and one behind it. Each move costs 1.
(define (domain parking)
  (:requirements :strips :typing :action-costs)
  (:types car curb)
  (:predicates (at-curb ?c - car) (at-curb-num ?c - car ?u - curb)
               (behind-car ?c - car ?front - car) (car-clear ?c - car) (curb-clear ?u - curb))
  (:functions (total-cost) - number)
  (:action move-curb-to-curb
    :parameters (?c - car ?from - curb ?to - curb)
    :precondition (and (car-clear ?c) (curb-clear ?to) (at-curb-num ?c ?from))
    :effect (and (not (curb-clear ?to)) (curb-clear ?from) (at-curb-num ?c ?to)
                 (not (at-curb-num ?c ?from)) (increase (total-cost) 1)))
  (:action move-curb-to-car
    :parameters (?c - car ?from - curb ?front - car)
    :precondition (and (car-clear ?c) (car-clear ?front) (at-curb-num ?c ?from) (at-curb ?front))
    :effect (and (not (car-clear ?front)) (curb-clear ?from) (behind-car ?c ?front)
                 (not (at-curb-num ?c ?from)) (not (at-curb ?c)) (increase (total-cost) 1)))
  (:action move-car-to-curb
    :parameters (?c - car ?front - car ?to - curb)
    :precondition (and (car-clear ?c) (curb-clear ?to) (behind-car ?c ?front))
    :effect (and (not (curb-clear ?to)) (car-clear ?front) (at-curb-num ?c ?to)
                 (not (behind-car ?c ?front)) (at-curb ?c) (increase (total-cost) 1)))
  (:action move-car-to-car
    :parameters (?c - car ?before - car ?front - car)
    :precondition (and (car-clear ?c) (car-clear ?front) (behind-car ?c ?before) (at-curb ?front))
    :effect (and (not (car-clear ?front)) (car-clear ?before) (behind-car ?c ?front)
                 (not (behind-car ?c ?before)) (increase (total-cost) 1))))
