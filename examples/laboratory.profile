# What a laboratory may send (HL7 v2.5.1, ORU^R01): for each patient its orders, for each order its results, with notes.
#
# A message is a tree: PATIENT_RESULT comes once for each patient, in it ORDER once for each order, in it RESULT once for each result.
profile LABORATORY
table SEX F M O U A N
table CLASS E I O P
table STATUS P F C X
table FLAGS L H LL HH N A
segment MSH R 1..1
  field 7 R 1..1 len 26
  field 9 R 1..1
    comp 1 R len 3
    comp 2 R len 3
  field 10 R 1..1 len 20
  field 11 R 1..1
    comp 1 R len 1
  field 12 R 1..1
    comp 1 R len 5
  field 18 RE 0..* len 16
group PATIENT_RESULT R 1..*
  group PATIENT R 1..1
    segment PID R 1..1
      # Up to three identifiers, each with who gave it.
      field 3 R 1..3
        comp 1 R len 15
        comp 4 R
          sub 1 R len 20
      # A family name, and a given name where the laboratory knows it.
      field 5 R 1..1
        comp 1 R
          sub 1 R len 50
        comp 2 RE len 30
      field 8 RE 0..1 len 1 table SEX
      # The social security number has no place here.
      field 19 X 0..0
    group VISIT O 0..1
      segment PV1 R 1..1
        field 2 R 1..1 len 1 table CLASS
    end
  end
  group ORDER R 1..*
    segment ORC O 0..1
      field 1 R 1..1 len 2
    segment OBR R 1..1
      field 3 R 1..1
        comp 1 R len 20
      # What was asked for: a code, and the system that it is of.
      field 4 R 1..1
        comp 1 R len 20
        comp 2 RE len 199
        comp 3 R len 20
      field 25 R 1..1 len 1 table STATUS
    segment NTE O 0..*
      field 3 R 1..* leaf len 200
    group RESULT O 0..*
      segment OBX R 1..1
        field 1 R 1..1 len 4
        field 3 R 1..1
          comp 1 R len 20
        field 5 RE 0..*
        field 8 RE 0..2 len 2 table FLAGS
        field 11 R 1..1 len 1 table STATUS
      segment NTE O 0..*
        field 3 R 1..* leaf len 200
    end
  end
end
