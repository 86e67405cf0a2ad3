# What the monitors of a ward take: one medical record number, and up to ten numbers that a nurse can dial.
profile MONITORS
table IDENTIFIERS MR PI SS PPN AN
table EQUIPMENT PH CP FX Internet
segment MSH R 1..1
  field 7 R 1..1 len 26
  field 9 R 1..1
    comp 1 R len 3
    comp 2 R len 3
  field 10 R 1..1 len 20
  field 11 R 1..1
    comp 1 R len 1
  field 12 R 1..1
    comp 1 R len 5
segment PID R 1..1
  field 3 RE 0..1
    comp 1 R len 15
    comp 4 RE
      sub 1 RE len 20
    comp 5 R len 8 table IDENTIFIERS
  field 5 R 1..1
    comp 1 R
      sub 1 R len 50
    comp 2 RE len 30
  field 13 RE 0..10
    comp 1 RE len 30
    comp 3 RE len 8 table EQUIPMENT
