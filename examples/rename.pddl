(define (problem rename) (:domain migration)
  (:objects name full-name - column shop stock - service)
  (:init (replaces full-name name) (there name) (filled name) (writes shop name) (writes stock name) (reads shop name) (reads stock name))
  (:goal (and (not (there name)) (reads shop full-name) (reads stock full-name))))
