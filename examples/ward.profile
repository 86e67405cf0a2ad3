# What a ward system may send when a patient is admitted (HL7 v2.5.1, ADT^A01).
profile WARD
table EVENTS A01 A04 A08
table SEX F M O U A N
table CLASS E I O P R B
segment MSH R 1..1
  field 7 R 1..1 len 26
  field 9 R 1..1
    comp 1 R len 3
    comp 2 R len 3 table EVENTS
  field 10 R 1..1 len 20
  field 11 R 1..1
    comp 1 R len 1
  field 12 R 1..1
    comp 1 R len 5
  field 18 RE 0..* len 16
segment EVN R 1..1
  field 2 R 1..1
segment PID R 1..1
  field 3 R 1..*
    comp 1 R len 15
    comp 5 RE len 5
  field 5 R 1..2
    comp 1 R
      sub 1 R len 50
    comp 2 RE len 30
  field 8 RE 0..1 len 1 table SEX
segment NK1 O 0..*
segment PV1 R 1..1
  field 2 R 1..1 len 1 table CLASS
segment OBX O 0..*
