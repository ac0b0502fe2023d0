(define (problem towers-3-2-2)
  (:domain building)
  (:objects q00 q01 q10 q11 q20 q21 - position h0 h1 h2 - height)
  (:init (at q00) (depot q00) (ground h0) (above h1 h0) (above h2 h1) (high q00 h0) (high q01 h0) (high q10 h0) (high q11 h0) (high q20 h0) (high q21
    h0) (beside q00 q10) (beside q00 q01) (beside q01 q11) (beside q01 q00) (beside q10 q20) (beside q10 q00) (beside q10 q11) (beside q11 q21)
    (beside q11 q01) (beside q11 q10) (beside q20 q10) (beside q20 q21) (beside q21 q11) (beside q21 q20))
  (:goal (and (high q21 h2) (not (holds)))))
