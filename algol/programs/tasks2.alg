comment Two tasks that are given cells by name, and an array;
begin integer a, b, t, u; integer array A[1:2];
  procedure work(x, A, k, n); value k, n; integer x, k, n; integer array A;
  begin integer i; x := 0;
    for i := 1 step 1 until n do x := x + i;
    A[k] := x * k
  end;
  t := process work(a, A, 1, 10); u := process work(b, A, 2, 4);
  await(t); await(u); print(a); print(b); print(A[1]); print(A[2])
end
