; Two crates on one pallet change places and pallets.
(define (problem two-crates)
  (:domain depots)
  (:objects depot shop - place
            truck - truck
            depot-hoist shop-hoist - hoist
            depot-pallet shop-pallet - pallet
            apples pears - crate)
  (:init (stands truck shop)
         (fixed depot-hoist depot) (fixed shop-hoist shop) (idle depot-hoist) (idle shop-hoist)
         (here depot-pallet depot) (here shop-pallet shop)
         (here apples depot) (here pears depot)
         (on apples depot-pallet) (on pears apples) (clear pears) (clear shop-pallet))
  (:goal (and (on apples pears) (on pears shop-pallet))))
