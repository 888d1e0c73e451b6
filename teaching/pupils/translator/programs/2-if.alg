begin integer x;
  x := 5;
  if x > 3 then print(1) else print(2);
  if x = 3 then print(3);
  if not (x < 5) and x <> 4 then print(4)
end
