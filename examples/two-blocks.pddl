(define (problem two) (:domain blocks) (:objects a b)
(:init (clear a) (ontable a) (clear b) (ontable b) (handempty)) (:goal (on b a)))
