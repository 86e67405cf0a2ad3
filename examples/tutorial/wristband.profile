profile WRISTBAND
table SEX 1 2 9
segment MSH R 1..1
  field 9 R 1..1
  field 10 R 1..1 len 20
segment PID R 1..1
  field 3 R 1..1
    comp 1 R len 12
  field 5 R 1..1
    comp 1 R len 40
  field 8 RE 0..1 table SEX
