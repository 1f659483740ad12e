(define (problem letter-and-parcel)
  (:domain logistics)
  (:objects north south - city
            north-field south-field - airport
            north-post south-post - place
            north-truck south-truck - truck
            plane - plane
            letter parcel - package)
  (:init (of north-field north) (of north-post north)
         (of south-field south) (of south-post south)
         (at north-truck north-field) (at south-truck south-post)
         (at plane south-field)
         (at letter north-post) (at parcel north-field))
  (:goal (and (at letter south-post) (at parcel south-field))))
