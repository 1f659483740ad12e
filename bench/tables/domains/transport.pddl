; Trucks carry up to two packages along roads and highways.
(define (domain transport-cost)
  (:requirements :strips :typing :action-costs)
  (:types vehicle package - locatable
          locatable location capacity-number)
  (:predicates (road ?a - location ?b - location) (highway ?a - location ?b - location)
               (at ?x - locatable ?l - location) (in ?p - package ?v - vehicle)
               (capacity ?v - vehicle ?c - capacity-number)
               (capacity-predecessor ?less - capacity-number ?more - capacity-number))
  (:functions (total-cost) - number)
  (:action drive-road
    :parameters (?v - vehicle ?from - location ?to - location)
    :precondition (and (at ?v ?from) (road ?from ?to))
    :effect (and (not (at ?v ?from)) (at ?v ?to) (increase (total-cost) 7)))
  (:action drive-highway
    :parameters (?v - vehicle ?from - location ?to - location)
    :precondition (and (at ?v ?from) (highway ?from ?to))
    :effect (and (not (at ?v ?from)) (at ?v ?to) (increase (total-cost) 12)))
  (:action pick-up
    :parameters (?v - vehicle ?l - location ?p - package ?less - capacity-number
                 ?more - capacity-number)
    :precondition (and (at ?v ?l) (at ?p ?l) (capacity-predecessor ?less ?more) (capacity ?v ?more))
    :effect (and (not (at ?p ?l)) (in ?p ?v) (capacity ?v ?less) (not (capacity ?v ?more))
                 (increase (total-cost) 1)))
  (:action drop
    :parameters (?v - vehicle ?l - location ?p - package ?less - capacity-number
                 ?more - capacity-number)
    :precondition (and (at ?v ?l) (in ?p ?v) (capacity-predecessor ?less ?more) (capacity ?v ?less))
    :effect (and (not (in ?p ?v)) (at ?p ?l) (capacity ?v ?more) (not (capacity ?v ?less))
                 (increase (total-cost) 1))))
