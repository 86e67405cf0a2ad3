profile ORU_R01
count characters
table V1 A B
segment MSH R 1..1
  field 3 RE 0..1
    comp 1 R len 20
    comp 2 O
group PATIENT_RESULT R 1..*
  segment OBX R 1..1
    field 1 R 1..1 len 4 table V1
end
