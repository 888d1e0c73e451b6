begin
  integer procedure fact(n); value n; integer n;
    fact := if n = 0 then 1 else n * fact(n - 1);
  integer procedure gcd(a, b); value a, b; integer a, b;
    gcd := if b = 0 then a else gcd(b, a mod b);
  print(fact(6));
  print(gcd(1071, 462))
end
