begin integer i;
  integer procedure sum(k, term); integer k, term;
  begin integer s;
    s := 0;
    for k := 1 step 1 until 10 do s := s + term;
    sum := s
  end;
  print(sum(i, i * i));
  print(sum(i, i * i * i))
end
