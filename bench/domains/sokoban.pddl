; A man pushes stones from cell to cell, one at a time. Cells lie beside one another in a direction.
; The direction is the first parameter, so that few cells are tried where an action is grounded.
(define (domain sokoban)
  (:requirements :strips :typing)
  (:types cell stone direction)
  (:predicates
    (beside ?a - cell ?b - cell ?d - direction)
    (man ?c - cell)
    (lies ?s - stone ?c - cell)
    (free ?c - cell))                     ; no stone lies there
  (:action walk
    :parameters (?d - direction ?a - cell ?b - cell)
    :precondition (and (man ?a) (beside ?a ?b ?d) (free ?b))
    :effect (and (not (man ?a)) (man ?b)))
  (:action push
    :parameters (?d - direction ?a - cell ?b - cell ?c - cell ?s - stone)
    :precondition (and (man ?a) (beside ?a ?b ?d) (beside ?b ?c ?d) (lies ?s ?b) (free ?c))
    :effect (and (not (man ?a)) (man ?b) (not (lies ?s ?b)) (lies ?s ?c)
                 (not (free ?c)) (free ?b))))
