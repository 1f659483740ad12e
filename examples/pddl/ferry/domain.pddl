; A ferry takes one car at a time from shore to shore.
(define (domain ferry)
  (:requirements :strips :typing)
  (:types shore car)
  (:predicates
    (ferry-at ?s - shore)
    (car-at ?c - car ?s - shore)
    (aboard ?c - car)
    (empty))
  (:action sail
    :parameters (?from - shore ?to - shore)
    :precondition (ferry-at ?from)
    :effect (and (not (ferry-at ?from)) (ferry-at ?to)))
  (:action board
    :parameters (?c - car ?s - shore)
    :precondition (and (car-at ?c ?s) (ferry-at ?s) (empty))
    :effect (and (aboard ?c) (not (car-at ?c ?s)) (not (empty))))
  (:action leave
    :parameters (?c - car ?s - shore)
    :precondition (and (aboard ?c) (ferry-at ?s))
    :effect (and (car-at ?c ?s) (empty) (not (aboard ?c)))))
