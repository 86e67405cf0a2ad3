profile STAYS
segment MSH R 1..1
  field 10 R 1..1 len 20
  field 18 RE 0..1
segment PID R 1..1
  field 3 R 1..2
group VISIT O 0..9
  segment PV1 R 1..1
    field 3 R 1..1
end
group GUARANTOR O 0..1
  segment GT1 R 1..1
    field 3 R 1..1
end
