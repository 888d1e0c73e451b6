begin
  print(9 - 5 - 3);
  print(- 2 - 5);
  print((2 + 3) * 4);
  print(-7 div 2)
end
