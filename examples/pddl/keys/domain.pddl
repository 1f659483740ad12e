; Doors are opened with their keys. A key that is needed lies behind its own door.
(define (domain keys)
  (:requirements :strips :typing)
  (:types room key)
  (:predicates
    (door ?a - room ?b - room ?k - key)
    (in ?r - room)
    (lies ?k - key ?r - room)
    (has ?k - key))
  (:action pick
    :parameters (?k - key ?r - room)
    :precondition (and (in ?r) (lies ?k ?r))
    :effect (and (has ?k) (not (lies ?k ?r))))
  (:action go
    :parameters (?from - room ?to - room ?k - key)
    :precondition (and (in ?from) (door ?from ?to ?k) (has ?k))
    :effect (and (in ?to) (not (in ?from)))))
