; Two towers, a on b and c on d on e, are to become one: a, b, c, d, e from the top.
(define (problem one-tower)
  (:domain blocks)
  (:objects a b c d e - block)
  (:init (on a b) (on-table b) (clear a)
         (on c d) (on d e) (on-table e) (clear c)
         (hand-free))
  (:goal (and (on a b) (on b c) (on c d) (on d e))))
