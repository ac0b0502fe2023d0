(define (problem towers-3-3-2)
  (:domain building)
  (:objects q00 q01 q02 q10 q11 q12 q20 q21 q22 - position h0 h1 h2 - height)
  (:init (at q00) (depot q00) (ground h0) (above h1 h0) (above h2 h1) (high q00 h0) (high q01 h0) (high q02 h0) (high q10 h0) (high q11 h0) (high q12
    h0) (high q20 h0) (high q21 h0) (high q22 h0) (beside q00 q10) (beside q00 q01) (beside q01 q11) (beside q01 q02) (beside q01 q00) (beside q02
    q12) (beside q02 q01) (beside q10 q20) (beside q10 q00) (beside q10 q11) (beside q11 q21) (beside q11 q01) (beside q11 q12) (beside q11 q10)
    (beside q12 q22) (beside q12 q02) (beside q12 q11) (beside q20 q10) (beside q20 q21) (beside q21 q11) (beside q21 q22) (beside q21 q20) (beside
    q22 q12) (beside q22 q21))
  (:goal (and (high q22 h2) (high q12 h1) (not (holds)))))
