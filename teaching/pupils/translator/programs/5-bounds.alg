begin integer i; integer array A[-2:2];
  for i := -2 step 1 until 2 do A[i] := i;
  print(A[-2]);
  print(A[2])
end
