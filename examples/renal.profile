# What a renal clinic takes of a laboratory's results (HL7 v2.5.1, ORU^R01): for each patient what it follows.
profile RENAL
segment MSH R 1..1
  field 7 R 1..1 len 26
  field 9 R 1..1
    comp 1 R len 3
    comp 2 R len 3
  field 10 R 1..1 len 20
  field 11 R 1..1
    comp 1 R len 1
  field 12 R 1..1
    comp 1 R len 5
  field 18 RE 0..* len 16
group PATIENT R 1..*
  segment PID R 1..1
    field 3 R 1..3
      comp 1 R len 15
    field 5 R 1..1
      comp 1 R
        sub 1 R len 50
  # None where there is nothing new of these tests.
  segment OBX O 0..*
    field 3 R 1..1
      comp 1 R len 20
    field 5 RE 0..*
    field 11 R 1..1 len 1
end
