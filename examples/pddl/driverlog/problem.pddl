(define (problem two-packages)
  (:domain driverlog)
  (:objects home mill quarry crossing - place
            ida - driver truck - truck flour stone - package)
  (:init (road home mill) (road mill home) (road home quarry) (road quarry home)
         (path home crossing) (path crossing home) (path crossing mill) (path mill crossing)
         (at ida home) (at truck mill) (free truck)
         (at flour mill) (at stone quarry))
  (:goal (and (at flour home) (at stone mill) (at ida home))))
