profile RESULTS
segment MSH R 1..1
group PATIENT_RESULT R 1..*
  group PATIENT R 1..1
    segment PID R 1..1
  end
  group ORDER R 1..*
    segment OBR R 1..1
  end
end
