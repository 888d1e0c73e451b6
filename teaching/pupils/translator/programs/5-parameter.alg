begin integer array A[1:3];
  integer procedure total(B, n); value n; integer n; integer array B;
  begin integer i, s;
    s := 0;
    for i := 1 step 1 until n do s := s + B[i];
    total := s
  end;
  A[1] := 1; A[2] := 2; A[3] := 3;
  print(total(A, 3))
end
