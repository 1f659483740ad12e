; A lift stops at floors, lets passengers in where they wait, and out where they want to be.
(define (domain miconic)
  (:requirements :strips :typing)
  (:types passenger floor)
  (:predicates
    (above ?low - floor ?high - floor)
    (waits ?p - passenger ?f - floor)
    (wants ?p - passenger ?f - floor)
    (lift-at ?f - floor)
    (inside ?p - passenger)
    (served ?p - passenger))
  (:action up
    :parameters (?from - floor ?to - floor)
    :precondition (and (lift-at ?from) (above ?from ?to))
    :effect (and (lift-at ?to) (not (lift-at ?from))))
  (:action down
    :parameters (?from - floor ?to - floor)
    :precondition (and (lift-at ?from) (above ?to ?from))
    :effect (and (lift-at ?to) (not (lift-at ?from))))
  (:action enter
    :parameters (?f - floor ?p - passenger)
    :precondition (and (lift-at ?f) (waits ?p ?f))
    :effect (inside ?p))
  (:action exit
    :parameters (?f - floor ?p - passenger)
    :precondition (and (lift-at ?f) (wants ?p ?f) (inside ?p))
    :effect (and (not (inside ?p)) (served ?p))))
