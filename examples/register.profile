# What a register of admissions takes: the target of the first map of docs/FORMATS.md.
profile REGISTER
table SEX 1 2 9
segment MSH R 1..1
  field 7 R 1..1 len 26
  field 9 R 1..1
    comp 1 R len 3
    comp 2 R len 3
  field 10 R 1..1 len 20
  field 11 R 1..1
    comp 1 R len 1
  field 12 R 1..1 len 5
  field 18 RE 0..* len 16
segment PID R 1..1
  field 3 R 1..1
    comp 1 R len 15
  field 5 R 1..1
    comp 1 R
      sub 1 R len 50
  field 8 RE 0..1 len 1 table SEX
segment PV1 R 1..1
  field 2 R 1..1 len 1
  field 3 R 1..1
    comp 1 RE len 20
    comp 4 R len 20
group ACT O 0..*
  segment PR1 R 1..1
    field 3 R 1..1
      comp 1 R len 20
end
segment ZAR R 1..1
  field 1 R 1..1 len 15
