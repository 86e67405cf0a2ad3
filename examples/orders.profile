# What a hospital's order entry sends of each radiology order (HL7 v2.5.1, ORM^O01). ORC-2 or OBR-2 has the placer's number, or both have it;
# a visit without an account has PV1-19 alone.
profile ORDERS
table SEX F M
segment MSH R 1..1
  field 7 R 1..1 len 26
  field 9 R 1..1
    comp 1 R len 3
    comp 2 R len 3
  field 10 R 1..1 len 20
  field 11 R 1..1
    comp 1 R len 1
  field 12 R 1..1
    comp 1 R len 5
segment PID R 1..1
  field 3 R 1..1
    comp 1 R len 15
  field 5 R 1..1
    comp 1 R
      sub 1 R len 50
    comp 2 RE len 30
  field 8 RE 0..1 len 1 table SEX
  field 18 RE 0..1
    comp 1 R len 15
segment PV1 RE 0..1
  field 19 RE 0..1
    comp 1 R len 15
group ORDER R 1..20
  segment ORC R 1..1
    field 2 RE 0..1
      comp 1 R len 16
  segment OBR R 1..1
    field 2 RE 0..1
      comp 1 R len 16
    field 4 R 1..1
      comp 1 R len 20
      comp 2 RE len 60
    field 27 RE 0..1
      comp 6 RE len 1
end
