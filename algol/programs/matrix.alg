$JOB MATRIX
comment Products of matrices: Fibonacci numbers by squaring, the value of a determinant, and an array by value;
begin
  integer i, j, n;
  procedure multiply(A, B, C, n); value A, B, n; integer array A, B, C; integer n;
  begin
    integer i, j, k, s;
    for i := 1 step 1 until n do
      for j := 1 step 1 until n do
      begin
        s := 0;
        for k := 1 step 1 until n do s := s + A[i, k] * B[k, j];
        C[i, j] := s
      end
  end multiply;
  comment Row by row, without fractions: Bareiss's elimination. A is a copy;
  integer procedure determinant(A, n); value A, n; integer array A; integer n;
  begin
    integer i, j, k, before;
    before := 1;
    for k := 1 step 1 until n - 1 do
    begin
      for i := k + 1 step 1 until n do
        for j := k + 1 step 1 until n do
          A[i, j] := (A[i, j] * A[k, k] - A[i, k] * A[k, j]) div before;
      before := A[k, k]
    end;
    determinant := A[n, n]
  end determinant;
  begin
    integer array F, R[1:2, 1:2];
    F[1, 1] := F[1, 2] := F[2, 1] := 1; F[2, 2] := 0;
    R[1, 1] := R[2, 2] := 1; R[1, 2] := R[2, 1] := 0;
    for n := 40, n div 2 while n > 0 do
    begin
      if n mod 2 = 1 then multiply(R, F, R, 2);
      if n > 1 then multiply(F, F, F, 2)
    end;
    print(R[1, 2])
  end;
  n := 4;
  begin
    integer array V, W[1:n, 1:n];
    for i := 1 step 1 until n do
      for j := 1 step 1 until n do V[i, j] := (i + 1) ^ (j - 1);
    print(determinant(V, n)); print(V[4, 4]);
    multiply(V, V, W, n); print(W[1, 1]); print(W[4, 4])
  end
end
