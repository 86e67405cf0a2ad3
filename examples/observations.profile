# What a registry takes of results (HL7 v2.5.1, ORU^R01): each test by its LOINC code, with its text and its coding system.
profile OBSERVATIONS
table SYSTEMS LN
segment MSH R 1..1
  field 7 R 1..1 len 26
  field 9 R 1..1
    comp 1 R len 3
    comp 2 R len 3
  field 10 R 1..1 len 20
  field 11 R 1..1
    comp 1 R len 1
  field 12 R 1..1
    comp 1 R len 5
segment PID R 1..1
  field 3 R 1..1
    comp 1 R len 15
segment OBX R 1..*
  field 3 R 1..1
    comp 1 R len 20
    comp 2 R len 199
    comp 3 R len 20 table SYSTEMS
  field 5 R 1..1
  field 11 R 1..1 len 1
