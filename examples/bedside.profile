# What devices at the bedside send (HL7 v2.5.1, ORU^R01): results under the hospital's own codes.
profile BEDSIDE
table TESTS GLU HGB K
segment MSH R 1..1
  field 7 R 1..1 len 26
  field 9 R 1..1
    comp 1 R len 3
    comp 2 R len 3
  field 10 R 1..1 len 20
  field 11 R 1..1
    comp 1 R len 1
  field 12 R 1..1
    comp 1 R len 5
segment PID R 1..1
  field 3 R 1..1
    comp 1 R len 15
segment OBX R 1..*
  field 3 R 1..1 table TESTS
  field 5 R 1..1
  field 11 R 1..1 len 1
