; An arm piles blocks on a table. It holds one block at a time.
(define (domain blocks)
  (:requirements :strips :typing)
  (:types block)
  (:predicates
    (on ?top - block ?below - block)
    (on-table ?b - block)
    (clear ?b - block)      ; nothing stands on the block, and the arm doesn't hold it
    (held ?b - block)
    (hand-free))
  (:action lift
    :parameters (?b - block)
    :precondition (and (clear ?b) (on-table ?b) (hand-free))
    :effect (and (held ?b) (not (clear ?b)) (not (on-table ?b)) (not (hand-free))))
  (:action lay
    :parameters (?b - block)
    :precondition (held ?b)
    :effect (and (on-table ?b) (clear ?b) (hand-free) (not (held ?b))))
  (:action put
    :parameters (?b - block ?below - block)
    :precondition (and (held ?b) (clear ?below))
    :effect (and (on ?b ?below) (clear ?b) (hand-free) (not (held ?b)) (not (clear ?below))))
  (:action take
    :parameters (?b - block ?below - block)
    :precondition (and (on ?b ?below) (clear ?b) (hand-free))
    :effect (and (held ?b) (clear ?below)
                 (not (on ?b ?below)) (not (clear ?b)) (not (hand-free)))))
