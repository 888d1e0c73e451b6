begin integer s, t, u, first, second;
  procedure count(x, n); value n; integer x, n;
  begin integer i;
    for i := 1 step 1 until n do x := x + 1
  end;
  s := 0; first := 0; second := 0;
  t := process count(first, 10);
  u := process count(second, 20);
  await(t); await(u);
  s := first + second;
  print(s)
end
