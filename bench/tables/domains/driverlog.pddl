; Trucks need drivers, who walk along paths; trucks drive along links and carry packages.
(define (domain driverlog)
  (:requirements :strips :typing)
  (:types driver truck obj - locatable
          locatable location)
  (:predicates (at ?x - locatable ?l - location) (in ?o - obj ?t - truck)
               (driving ?d - driver ?t - truck) (link ?a - location ?b - location)
               (path ?a - location ?b - location) (empty ?t - truck))
  (:action load-truck
    :parameters (?o - obj ?t - truck ?l - location)
    :precondition (and (at ?t ?l) (at ?o ?l))
    :effect (and (not (at ?o ?l)) (in ?o ?t)))
  (:action unload-truck
    :parameters (?o - obj ?t - truck ?l - location)
    :precondition (and (at ?t ?l) (in ?o ?t))
    :effect (and (not (in ?o ?t)) (at ?o ?l)))
  (:action board-truck
    :parameters (?d - driver ?t - truck ?l - location)
    :precondition (and (at ?t ?l) (at ?d ?l) (empty ?t))
    :effect (and (not (at ?d ?l)) (driving ?d ?t) (not (empty ?t))))
  (:action disembark-truck
    :parameters (?d - driver ?t - truck ?l - location)
    :precondition (and (at ?t ?l) (driving ?d ?t))
    :effect (and (not (driving ?d ?t)) (at ?d ?l) (empty ?t)))
  (:action drive-truck
    :parameters (?t - truck ?from - location ?to - location ?d - driver)
    :precondition (and (at ?t ?from) (driving ?d ?t) (link ?from ?to))
    :effect (and (not (at ?t ?from)) (at ?t ?to)))
  (:action walk
    :parameters (?d - driver ?from - location ?to - location)
    :precondition (and (at ?d ?from) (path ?from ?to))
    :effect (and (not (at ?d ?from)) (at ?d ?to))))
