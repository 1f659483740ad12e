; Satellites turn, switch on one instrument at a time, calibrate it and take pictures with it.
(define (domain satellite)
  (:requirements :strips :typing)
  (:types satellite direction instrument mode)
  (:predicates
    (carries ?s - satellite ?i - instrument)
    (supports ?i - instrument ?m - mode)
    (reference ?i - instrument ?d - direction)
    (points ?s - satellite ?d - direction)
    (power ?s - satellite)                ; the satellite has power for an instrument
    (powered ?i - instrument)
    (calibrated ?i - instrument)
    (taken ?d - direction ?m - mode))
  (:action turn
    :parameters (?s - satellite ?to - direction ?from - direction)
    :precondition (points ?s ?from)
    :effect (and (not (points ?s ?from)) (points ?s ?to)))
  (:action switch-on
    :parameters (?i - instrument ?s - satellite)
    :precondition (and (carries ?s ?i) (power ?s))
    :effect (and (powered ?i) (not (calibrated ?i)) (not (power ?s))))
  (:action switch-off
    :parameters (?i - instrument ?s - satellite)
    :precondition (and (carries ?s ?i) (powered ?i))
    :effect (and (power ?s) (not (powered ?i))))
  (:action calibrate
    :parameters (?s - satellite ?i - instrument ?d - direction)
    :precondition (and (carries ?s ?i) (reference ?i ?d) (points ?s ?d) (powered ?i))
    :effect (calibrated ?i))
  (:action take
    :parameters (?s - satellite ?d - direction ?i - instrument ?m - mode)
    :precondition (and (carries ?s ?i) (supports ?i ?m) (calibrated ?i) (powered ?i)
                       (points ?s ?d))
    :effect (taken ?d ?m)))
