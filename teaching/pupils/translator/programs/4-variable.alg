begin integer x;
  procedure p(n); value n; integer n; n := 0;
  procedure q(n); integer n; n := 0;
  x := 5;
  p(x); print(x);
  q(x); print(x)
end
