comment Procedures with unlike parameters for one parameter, own variables and arrays, an array by value;
begin integer n;
  integer procedure next; begin n := n + 1; next := n end;
  integer procedure once(x); value x; integer x; once := x + x;
  integer procedure twice(x); integer x; twice := x + x;
  integer procedure apply(f); integer procedure f; apply := f(next);
  integer procedure visits; begin own integer count; own integer array squares[1:3];
    count := count + 1; squares[count] := count ^ 2; visits := squares[count] + 100 * squares[1] end;
  procedure spoil(A, B); value A; integer array A, B;
  begin integer i; for i := 1, 2, 3 do begin A[i] := -A[i]; B[i] := A[i] end; printrow(A) end;
  n := 0; print(apply(once)); print(apply(twice)); print(n);
  print(visits); print(visits); print(visits);
  begin integer array A, B[1:3]; A[1] := 5; A[2] := 6; A[3] := 7;
    spoil(A, B); printrow(A); printrow(B); spoil(B, B); printrow(B)
  end
end
