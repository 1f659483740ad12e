(define (problem three-pictures)
  (:domain satellite)
  (:objects eye - satellite star moon comet - direction
            lens sensor - instrument visible infrared - mode)
  (:init (carries eye lens) (carries eye sensor) (supports lens visible) (supports sensor infrared)
         (reference lens star) (reference sensor moon)
         (points eye comet) (power eye))
  (:goal (and (taken comet visible) (taken moon visible) (taken comet infrared)
              (points eye star))))
