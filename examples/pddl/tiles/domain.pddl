; Sliding tiles: a tile moves into the empty cell beside it.
(define (domain tiles)
  (:requirements :strips :typing)
  (:types tile cell)
  (:predicates
    (beside ?a - cell ?b - cell)
    (lies ?t - tile ?c - cell)
    (empty ?c - cell))
  (:action slide
    :parameters (?t - tile ?from - cell ?to - cell)
    :precondition (and (beside ?from ?to) (lies ?t ?from) (empty ?to))
    :effect (and (lies ?t ?to) (empty ?from) (not (lies ?t ?from)) (not (empty ?to)))))
