# What an archive takes of a laboratory's results (HL7 v2.5.1, ORU^R01): for each patient its orders, for each order its results and all notes on it.
profile ARCHIVE
table SEXES female male other
table STATES preliminary final corrected cancelled
segment MSH R 1..1
  field 7 R 1..1 len 26
  field 9 R 1..1
    comp 1 R len 3
    comp 2 R len 3
  field 10 R 1..1 len 20
  field 11 R 1..1
    comp 1 R len 1
  field 12 R 1..1 len 5
  field 18 RE 0..* len 16
group REPORT R 1..*
  segment PID R 1..1
    # One identifier is enough, with who gave it.
    field 3 R 1..1
      comp 1 R len 15
      comp 4 R
    field 5 R 1..1
      comp 1 R
        sub 1 R len 50
    field 8 RE 0..1 len 6 table SEXES
  group ORDER R 1..*
    segment OBR R 1..1
      field 3 R 1..1
        comp 1 R len 20
      field 4 R 1..1
        comp 1 R len 20
      field 25 R 1..1 len 11 table STATES
    segment OBX O 0..*
      field 3 R 1..1
        comp 1 R len 20
      field 5 RE 0..*
      field 11 R 1..1 len 11 table STATES
    segment NTE O 0..*
      field 3 R 1..* leaf len 200
  end
end
