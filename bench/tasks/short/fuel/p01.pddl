(define (problem deliveries-8-4)
  (:domain fuel)
  (:objects t0 t1 - truck c0 c1 c2 c3 - parcel
    l0 l1 l2 l3 l4 l5 l6 l7 - place f0 f1 f2 f3 f4 f5 f6 - level)
  (:init (next f0 f1) (next f1 f2) (next f2 f3) (next f3 f4) (next f4 f5) (next f5 f6) (road l0 l1) (road l1 l0) (road l0 l3) (road l3 l0) (road l1
    l2) (road l2 l1) (road l2 l3) (road l3 l2) (road l2 l5) (road l5 l2) (road l3 l4) (road l4 l3) (road l4 l5) (road l5 l4) (road l4 l7) (road l7 l4)
    (road l5 l6) (road l6 l5) (road l6 l1) (road l1 l6) (road l6 l7) (road l7 l6) (road l7 l0) (road l0 l7) (at t0 l2) (tank t0 f2) (at t1 l1) (tank
    t1 f2) (store l0 f1) (store l1 f0) (store l2 f1) (store l3 f1) (store l4 f1) (store l5 f2) (store l6 f1) (store l7 f0) (lies c0 l1) (lies c1 l0)
    (lies c2 l6) (lies c3 l0))
  (:goal (and (lies c0 l3) (lies c1 l6) (lies c2 l3) (lies c3 l5))))
