(define (problem deliveries-14-8)
  (:domain fuel)
  (:objects t0 t1 t2 - truck c0 c1 c2 c3 c4 c5 c6 c7 - parcel
    l0 l1 l2 l3 l4 l5 l6 l7 l8 l9 l10 l11 l12 l13 - place f0 f1 f2 f3 f4 f5 f6 f7 f8 - level)
  (:init (next f0 f1) (next f1 f2) (next f2 f3) (next f3 f4) (next f4 f5) (next f5 f6) (next f6 f7) (next f7 f8) (road l0 l1) (road l1 l0) (road l0
    l3) (road l3 l0) (road l1 l2) (road l2 l1) (road l2 l3) (road l3 l2) (road l2 l5) (road l5 l2) (road l3 l4) (road l4 l3) (road l4 l5) (road l5 l4)
    (road l4 l7) (road l7 l4) (road l5 l6) (road l6 l5) (road l6 l7) (road l7 l6) (road l6 l9) (road l9 l6) (road l7 l8) (road l8 l7) (road l8 l9)
    (road l9 l8) (road l8 l11) (road l11 l8) (road l9 l10) (road l10 l9) (road l10 l11) (road l11 l10) (road l10 l13) (road l13 l10) (road l11 l12)
    (road l12 l11) (road l12 l1) (road l1 l12) (road l12 l13) (road l13 l12) (road l13 l0) (road l0 l13) (at t0 l9) (tank t0 f2) (at t1 l4) (tank t1
    f2) (at t2 l11) (tank t2 f2) (store l0 f1) (store l1 f2) (store l2 f2) (store l3 f2) (store l4 f2) (store l5 f0) (store l6 f1) (store l7 f0)
    (store l8 f2) (store l9 f0) (store l10 f0) (store l11 f0) (store l12 f1) (store l13 f1) (lies c0 l13) (lies c1 l6) (lies c2 l1) (lies c3 l3) (lies
    c4 l11) (lies c5 l6) (lies c6 l2) (lies c7 l6))
  (:goal (and (lies c0 l3) (lies c1 l8) (lies c2 l9) (lies c3 l0) (lies c4 l3) (lies c5 l4) (lies c6 l12) (lies c7 l2))))
