; Hoists lift crates from piles onto trucks and back; trucks drive between the places.
(define (domain depots)
  (:requirements :strips :typing)
  (:types pallet crate - surface
          truck hoist surface place)
  (:predicates
    (stands ?t - truck ?p - place)
    (fixed ?h - hoist ?p - place)
    (here ?s - surface ?p - place)
    (on ?c - crate ?s - surface)
    (in ?c - crate ?t - truck)
    (lifts ?h - hoist ?c - crate)
    (idle ?h - hoist)
    (clear ?s - surface))
  (:action drive
    :parameters (?t - truck ?from - place ?to - place)
    :precondition (stands ?t ?from)
    :effect (and (not (stands ?t ?from)) (stands ?t ?to)))
  (:action lift
    :parameters (?h - hoist ?c - crate ?s - surface ?p - place)
    :precondition (and (fixed ?h ?p) (idle ?h) (here ?c ?p) (on ?c ?s) (clear ?c))
    :effect (and (lifts ?h ?c) (clear ?s)
                 (not (idle ?h)) (not (here ?c ?p)) (not (on ?c ?s)) (not (clear ?c))))
  (:action lower
    :parameters (?h - hoist ?c - crate ?s - surface ?p - place)
    :precondition (and (fixed ?h ?p) (lifts ?h ?c) (here ?s ?p) (clear ?s))
    :effect (and (idle ?h) (here ?c ?p) (on ?c ?s) (clear ?c)
                 (not (lifts ?h ?c)) (not (clear ?s))))
  (:action load
    :parameters (?h - hoist ?c - crate ?t - truck ?p - place)
    :precondition (and (fixed ?h ?p) (stands ?t ?p) (lifts ?h ?c))
    :effect (and (in ?c ?t) (idle ?h) (not (lifts ?h ?c))))
  (:action unload
    :parameters (?h - hoist ?c - crate ?t - truck ?p - place)
    :precondition (and (fixed ?h ?p) (stands ?t ?p) (in ?c ?t) (idle ?h))
    :effect (and (lifts ?h ?c) (not (in ?c ?t)) (not (idle ?h)))))
