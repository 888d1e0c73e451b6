begin integer i; integer array A[0:9];
  A[3] := 8;
  print(A[3]);
  for i := 0 step 1 until 9 do A[i] := (i + 1) * (i + 1);
  print(A[9]);
  print(A[10])
end
