# What a ward takes of a laboratory's results (HL7 v2.5.1, ORU^R01): for each patient his results, with what is out of range.
profile WARD_RESULTS
table FLAGS L H LL HH N A
table STATUS P F C X
segment MSH R 1..1
  field 7 R 1..1 len 26
  field 9 R 1..1
    comp 1 R len 3
    comp 2 R len 3
  field 10 R 1..1 len 20
  field 11 R 1..1
    comp 1 R len 1
  field 12 R 1..1
    comp 1 R len 5
  field 18 RE 0..* len 16
group PATIENT R 1..*
  segment PID R 1..1
    # All identifiers: the ward looks for its own.
    field 3 R 1..3
      comp 1 R len 15
    field 5 R 1..1
      comp 1 R
        sub 1 R len 50
  segment PV1 O 0..1
    field 2 R 1..1 len 1
  segment OBX O 0..*
    field 3 R 1..1
      comp 1 R len 20
    field 5 RE 0..*
    field 8 RE 0..2 len 2 table FLAGS
    field 11 R 1..1 len 1 table STATUS
end
