profile DESK
table SEX M F U
segment MSH R 1..1
  field 9 R 1..1
  field 10 R 1..1 len 20
  field 18 RE 0..1
segment PID R 1..1
  field 3 R 1..3
    comp 1 R len 12
    comp 5 RE
  field 5 R 1..1
    comp 1 R len 40
    comp 2 RE len 30
  field 7 RE 0..1 len 8
  field 8 RE 0..1 table SEX
segment NK1 O 0..2
  field 2 R 1..1
group VISIT O 0..1
  segment PV1 R 1..1
    field 2 R 1..1 len 1
    field 3 RE 0..1
end
