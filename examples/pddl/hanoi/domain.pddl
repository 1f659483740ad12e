; Discs move from peg to peg, never a larger one onto a smaller one.
(define (domain hanoi)
  (:requirements :strips :typing)
  (:types disc peg - support)
  (:predicates
    (fits ?d - disc ?s - support)     ; the disc may lie on the support
    (lies-on ?d - disc ?s - support)
    (clear ?s - support))
  (:action move
    :parameters (?d - disc ?from - support ?to - support)
    :precondition (and (fits ?d ?to) (lies-on ?d ?from) (clear ?d) (clear ?to))
    :effect (and (lies-on ?d ?to) (clear ?from) (not (lies-on ?d ?from)) (not (clear ?to)))))
