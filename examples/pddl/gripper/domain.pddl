; A robot with two grippers carries balls from room to room.
(define (domain gripper)
  (:requirements :strips :typing)
  (:types room ball gripper)
  (:predicates
    (robot-in ?r - room)
    (lies-in ?b - ball ?r - room)
    (open ?g - gripper)
    (holds ?g - gripper ?b - ball))
  (:action go
    :parameters (?from - room ?to - room)
    :precondition (robot-in ?from)
    :effect (and (not (robot-in ?from)) (robot-in ?to)))
  (:action grasp
    :parameters (?g - gripper ?b - ball ?r - room)
    :precondition (and (robot-in ?r) (lies-in ?b ?r) (open ?g))
    :effect (and (holds ?g ?b) (not (lies-in ?b ?r)) (not (open ?g))))
  (:action drop
    :parameters (?g - gripper ?b - ball ?r - room)
    :precondition (and (robot-in ?r) (holds ?g ?b))
    :effect (and (lies-in ?b ?r) (open ?g) (not (holds ?g ?b)))))
