; Three tiles on two by two cells, of which two are to change places. No number of moves does that.
(define (problem swapped)
  (:domain puzzle)
  (:objects one two three - tile c11 c12 c21 c22 - cell)
  (:init
    (beside c11 c12) (beside c12 c11) (beside c21 c22) (beside c22 c21)
    (beside c11 c21) (beside c21 c11) (beside c12 c22) (beside c22 c12)
    (at one c11) (at two c12) (at three c21) (gap c22))
  (:goal (and (at two c11) (at one c12) (at three c21))))
