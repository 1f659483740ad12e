; A rover drives between waypoints, takes samples and pictures, and sends what it found home.
(define (domain rovers)
  (:requirements :strips :typing)
  (:types sample picture - finding
          rover waypoint camera objective finding)
  (:predicates
    (at ?r - rover ?w - waypoint)
    (way ?r - rover ?a - waypoint ?b - waypoint)
    (lies ?s - sample ?w - waypoint)
    (store-empty ?r - rover)
    (mounted ?c - camera ?r - rover)
    (ready ?c - camera)
    (target ?c - camera ?o - objective)
    (sees ?w - waypoint ?o - objective)
    (shows ?p - picture ?o - objective)
    (hears ?w - waypoint)                 ; the lander hears a rover at the waypoint
    (has ?r - rover ?f - finding)
    (sent ?f - finding))
  (:action drive
    :parameters (?r - rover ?from - waypoint ?to - waypoint)
    :precondition (and (at ?r ?from) (way ?r ?from ?to))
    :effect (and (at ?r ?to) (not (at ?r ?from))))
  (:action take-sample
    :parameters (?r - rover ?s - sample ?w - waypoint)
    :precondition (and (at ?r ?w) (lies ?s ?w) (store-empty ?r))
    :effect (and (has ?r ?s) (not (lies ?s ?w)) (not (store-empty ?r))))
  (:action empty-store
    :parameters (?r - rover)
    :precondition (and)
    :effect (store-empty ?r))
  (:action calibrate
    :parameters (?r - rover ?c - camera ?o - objective ?w - waypoint)
    :precondition (and (mounted ?c ?r) (target ?c ?o) (at ?r ?w) (sees ?w ?o))
    :effect (ready ?c))
  (:action photograph
    :parameters (?r - rover ?c - camera ?p - picture ?o - objective ?w - waypoint)
    :precondition (and (mounted ?c ?r) (ready ?c) (shows ?p ?o) (at ?r ?w) (sees ?w ?o))
    :effect (and (has ?r ?p) (not (ready ?c))))
  (:action send
    :parameters (?r - rover ?f - finding ?w - waypoint)
    :precondition (and (at ?r ?w) (hears ?w) (has ?r ?f))
    :effect (sent ?f)))
