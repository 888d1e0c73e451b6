begin
  print(2 + 3 * 4)
end
