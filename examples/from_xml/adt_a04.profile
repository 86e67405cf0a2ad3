profile ADT_A01
count characters
table 0001 F M "not known"
segment MSH R 1..1
  field 3 RE 0..1
  field 4 X 0..0
segment PID R 1..1
  field 1 O 0..1 len 4
  field 2 O 0..1 len 20
  field 3 R 1..*
    comp 1 R len 15
    comp 2 X
    comp 3 O len 3
    comp 4 R
      sub 1 R len 20
  field 4 RE 0..1 len 1 table 0001
segment NK1 O 0..1
group VISIT_GROUP R 1..2
  segment PV1 R 1..1
  segment ROL O 0..*
end
segment DG1 X 0..0
segment NK1 as NK1_2 RE 0..1
