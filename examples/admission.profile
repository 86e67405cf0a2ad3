# What a registration desk may send (HL7 v2.5.1, ADT^A01): who comes, who is next of kin, what was done, who pays.
#
# PROCEDURE and INSURANCE are groups: their segments come together, in this order, and the first of them begins the next one.
profile ADMISSION
table EVENTS A01 A04 A08
table SEX F M O U A N
table CLASS E I O P
table RELATION SPO CHD PAR GRD
segment MSH R 1..1
  field 7 R 1..1 len 26
  field 9 R 1..1
    comp 1 R len 3
    comp 2 R len 3 table EVENTS
  field 10 R 1..1 len 20
  field 11 R 1..1
    comp 1 R len 1
  field 12 R 1..1
    comp 1 R len 5
  field 18 RE 0..* len 16
segment EVN R 1..1
  field 2 R 1..1 len 26
segment PID R 1..1
  field 3 R 1..3
    comp 1 R len 15
    comp 4 R
      sub 1 R len 20
  field 5 R 1..1
    comp 1 R
      sub 1 R len 50
    comp 2 RE len 30
  field 7 RE 0..1 len 8
  field 8 RE 0..1 len 1 table SEX
segment NK1 RE 0..2
  field 3 R 1..1 table RELATION
segment PV1 R 1..1
  field 2 R 1..1 len 1 table CLASS
  field 3 RE 0..1
    comp 1 R len 20
group PROCEDURE O 0..*
  segment PR1 R 1..1
    field 3 R 1..1
      comp 1 R len 20
    field 5 R 1..1 len 26
  segment ROL O 0..*
    field 3 R 1..1
end
group INSURANCE O 0..2
  segment IN1 R 1..1
    field 3 R 1..1
  segment IN2 O 0..1
end
