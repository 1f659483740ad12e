; Sliding tiles: a tile moves onto the blank beside it. Places are columns and rows.
(define (domain tile-typed)
  (:requirements :strips :typing)
  (:types tile pos)
  (:predicates (at ?t - tile ?x - pos ?y - pos) (blank ?x - pos ?y - pos)
               (inc ?low - pos ?high - pos) (dec ?high - pos ?low - pos))
  (:action move-up
    :parameters (?t - tile ?x - pos ?y - pos ?to - pos)
    :precondition (and (dec ?y ?to) (blank ?x ?to) (at ?t ?x ?y))
    :effect (and (not (blank ?x ?to)) (not (at ?t ?x ?y)) (blank ?x ?y) (at ?t ?x ?to)))
  (:action move-down
    :parameters (?t - tile ?x - pos ?y - pos ?to - pos)
    :precondition (and (inc ?y ?to) (blank ?x ?to) (at ?t ?x ?y))
    :effect (and (not (blank ?x ?to)) (not (at ?t ?x ?y)) (blank ?x ?y) (at ?t ?x ?to)))
  (:action move-left
    :parameters (?t - tile ?x - pos ?y - pos ?to - pos)
    :precondition (and (dec ?x ?to) (blank ?to ?y) (at ?t ?x ?y))
    :effect (and (not (blank ?to ?y)) (not (at ?t ?x ?y)) (blank ?x ?y) (at ?t ?to ?y)))
  (:action move-right
    :parameters (?t - tile ?x - pos ?y - pos ?to - pos)
    :precondition (and (inc ?x ?to) (blank ?to ?y) (at ?t ?x ?y))
    :effect (and (not (blank ?to ?y)) (not (at ?t ?x ?y)) (blank ?x ?y) (at ?t ?to ?y))))
