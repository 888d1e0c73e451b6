begin integer i, s;
  s := 0;
  for i := 1 step 1 until 10 do s := s + i;
  print(s);
  print(i);
  for i := 5 step -2 until 1 do print(i)
end
