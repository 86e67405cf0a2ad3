# What a radiology worklist takes: one OBR for each order. The sex is that of ISO 5218, the priority is always there, the placer's number where there is one.
profile WORKLIST
table ISO_5218 0 1 2 9
segment MSH R 1..1
  field 7 R 1..1 len 26
  field 9 R 1..1
    comp 1 R len 3
    comp 2 R len 3
  field 10 R 1..1 len 20
  field 11 R 1..1
    comp 1 R len 1
  field 12 R 1..1
    comp 1 R len 5
segment PID R 1..1
  field 3 R 1..1
    comp 1 R len 15
  field 5 R 1..1
    comp 1 R
      sub 1 R len 50
    comp 2 RE len 30
  field 8 R 1..1 len 1 table ISO_5218
  field 18 RE 0..1
    comp 1 R len 15
segment OBR R 1..20
  field 2 RE 0..1
    comp 1 R len 16
  field 4 R 1..1
    comp 1 R len 20
    comp 2 R len 60
  field 5 R 1..1 len 1
