$DATA 7 -2
$DATA 30
begin integer s, x;
  s := 0;
L: x := read;
  if not nomore(x) then
    begin s := s + x; go to L end;
  print(s)
end
