begin integer i; integer array A[1:5];
  integer procedure sum(k, m, n, term); value m, n; integer k, m, n, term;
  begin integer s; s := 0;
    for k := m step 1 until n do s := s + term;
    sum := s
  end sum;
  for i := 1 step 1 until 5 do A[i] := i ^ 2;
  print(sum(i, 1, 5, A[i]))
end
