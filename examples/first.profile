profile P1
table SEX M F U
segment MSH R 1..1
  field 10 R 1..1
segment PID R 1..1
  field 3 R 1..2
  field 5 RE 0..1
  field 8 RE 0..1 len 1 table SEX
segment NK1 O 0..2
