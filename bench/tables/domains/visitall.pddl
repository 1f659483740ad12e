; A robot has to visit places of a grid.
(define (domain grid-visit-all)
  (:requirements :strips :typing)
  (:types place)
  (:predicates (connected ?a - place ?b - place) (at-robot ?p - place) (visited ?p - place))
  (:action move
    :parameters (?from - place ?to - place)
    :precondition (and (at-robot ?from) (connected ?from ?to))
    :effect (and (not (at-robot ?from)) (at-robot ?to) (visited ?to))))
