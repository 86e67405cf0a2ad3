profile BEDS
segment MSH R 1..1
  field 10 R 1..1 len 20
segment PID R 1..1
  field 3 R 1..2
segment PV1 RE 0..9
  field 3 R 1..1
segment GT1 RE 0..1
  field 3 R 1..1
segment ZGT R 1..1
  field 1 R 1..1
  field 2 RE 0..1
