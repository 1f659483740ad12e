; An arm piles blocks on a table. It holds one block at a time.
(define (domain blocks)
  (:requirements :strips)
  (:predicates (on ?top ?below) (ontable ?b) (clear ?b) (handempty) (holding ?b))
  (:action pick-up
    :parameters (?b)
    :precondition (and (clear ?b) (ontable ?b) (handempty))
    :effect (and (holding ?b) (not (ontable ?b)) (not (clear ?b)) (not (handempty))))
  (:action put-down
    :parameters (?b)
    :precondition (holding ?b)
    :effect (and (ontable ?b) (clear ?b) (handempty) (not (holding ?b))))
  (:action stack
    :parameters (?b ?below)
    :precondition (and (holding ?b) (clear ?below))
    :effect (and (on ?b ?below) (clear ?b) (handempty) (not (holding ?b)) (not (clear ?below))))
  (:action unstack
    :parameters (?b ?below)
    :precondition (and (on ?b ?below) (clear ?b) (handempty))
    :effect (and (holding ?b) (clear ?below)
                 (not (on ?b ?below)) (not (clear ?b)) (not (handempty)))))
