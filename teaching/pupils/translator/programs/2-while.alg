begin integer x;
  x := 1;
  for x := 2 * x while x < 100 do;
  print(x)
end
