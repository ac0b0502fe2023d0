(define (problem towers-4-3-3)
  (:domain building)
  (:objects q00 q01 q02 q10 q11 q12 q20 q21 q22 q30 q31 q32 - position h0 h1 h2 h3 - height)
  (:init (at q00) (depot q00) (ground h0) (above h1 h0) (above h2 h1) (above h3 h2) (high q00 h0) (high q01 h0) (high q02 h0) (high q10 h0) (high q11
    h0) (high q12 h0) (high q20 h0) (high q21 h0) (high q22 h0) (high q30 h0) (high q31 h0) (high q32 h0) (beside q00 q10) (beside q00 q01) (beside
    q01 q11) (beside q01 q02) (beside q01 q00) (beside q02 q12) (beside q02 q01) (beside q10 q20) (beside q10 q00) (beside q10 q11) (beside q11 q21)
    (beside q11 q01) (beside q11 q12) (beside q11 q10) (beside q12 q22) (beside q12 q02) (beside q12 q11) (beside q20 q30) (beside q20 q10) (beside
    q20 q21) (beside q21 q31) (beside q21 q11) (beside q21 q22) (beside q21 q20) (beside q22 q32) (beside q22 q12) (beside q22 q21) (beside q30 q20)
    (beside q30 q31) (beside q31 q21) (beside q31 q32) (beside q31 q30) (beside q32 q22) (beside q32 q31))
  (:goal (and (high q22 h3) (not (holds)))))
