begin integer a, b;
  a := 7;
  b := a * a;
  print(a);
  print(b)
end
