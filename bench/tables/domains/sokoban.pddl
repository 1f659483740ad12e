; A player pushes stones to goals, one at a time. A move costs 1, and a push costs 2.
(define (domain sokoban)
  (:requirements :strips :typing :action-costs)
  (:types player stone - thing
          thing location direction)
  (:predicates (clear ?l - location) (at ?t - thing ?l - location) (at-goal ?s - stone)
               (is-goal ?l - location) (is-nongoal ?l - location)
               (move-dir ?from - location ?to - location ?d - direction))
  (:functions (total-cost) - number)
  (:action move
    :parameters (?p - player ?from - location ?to - location ?d - direction)
    :precondition (and (at ?p ?from) (clear ?to) (move-dir ?from ?to ?d))
    :effect (and (not (at ?p ?from)) (not (clear ?to)) (at ?p ?to) (clear ?from)
                 (increase (total-cost) 1)))
  (:action push-to-nongoal
    :parameters (?p - player ?s - stone ?at - location ?from - location ?to - location
                 ?d - direction)
    :precondition (and (at ?p ?at) (at ?s ?from) (clear ?to) (move-dir ?at ?from ?d)
                       (move-dir ?from ?to ?d) (is-nongoal ?to))
    :effect (and (not (at ?p ?at)) (not (at ?s ?from)) (not (clear ?to)) (at ?p ?from) (at ?s ?to)
                 (clear ?at) (not (at-goal ?s)) (increase (total-cost) 2)))
  (:action push-to-goal
    :parameters (?p - player ?s - stone ?at - location ?from - location ?to - location
                 ?d - direction)
    :precondition (and (at ?p ?at) (at ?s ?from) (clear ?to) (move-dir ?at ?from ?d)
                       (move-dir ?from ?to ?d) (is-goal ?to))
    :effect (and (not (at ?p ?at)) (not (at ?s ?from)) (not (clear ?to)) (at ?p ?from) (at ?s ?to)
                 (clear ?at) (at-goal ?s) (increase (total-cost) 2))))
