; Boards become shelves. The planer makes a board smooth, and the belt makes two boards rough at
; once. Spray holds on smooth boards alone; a bath is cheap, but must be filled with its colour.
(define (domain workshop)
  (:requirements :strips :typing :action-costs)
  (:types board colour)
  (:predicates
    (raw ?b - board)
    (rough ?b - board)
    (smooth ?b - board)
    (other ?a - board ?b - board)
    (filled ?c - colour)
    (painted ?b - board ?c - colour))
  (:functions (total-cost) - number)
  (:action plane
    :parameters (?b - board)
    :precondition (raw ?b)
    :effect (and (not (raw ?b)) (smooth ?b) (increase (total-cost) 12)))
  (:action grind-two
    :parameters (?a - board ?b - board)
    :precondition (and (raw ?a) (raw ?b) (other ?a ?b))
    :effect (and (not (raw ?a)) (not (raw ?b)) (rough ?a) (rough ?b) (increase (total-cost) 9)))
  (:action polish
    :parameters (?b - board)
    :precondition (rough ?b)
    :effect (and (not (rough ?b)) (smooth ?b) (increase (total-cost) 6)))
  (:action fill-bath
    :parameters (?old - colour ?new - colour)
    :precondition (filled ?old)
    :effect (and (not (filled ?old)) (filled ?new) (increase (total-cost) 15)))
  (:action dip-rough
    :parameters (?b - board ?c - colour)
    :precondition (and (rough ?b) (filled ?c))
    :effect (and (not (rough ?b)) (painted ?b ?c) (increase (total-cost) 8)))
  (:action dip-smooth
    :parameters (?b - board ?c - colour)
    :precondition (and (smooth ?b) (filled ?c))
    :effect (and (not (smooth ?b)) (painted ?b ?c) (increase (total-cost) 3)))
  (:action spray
    :parameters (?b - board ?c - colour)
    :precondition (smooth ?b)
    :effect (and (not (smooth ?b)) (painted ?b ?c) (increase (total-cost) 11))))
