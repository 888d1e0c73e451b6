$STACK 16383
begin
  integer procedure A(k, x1, x2, x3, x4, x5); value k; integer k, x1, x2, x3, x4, x5;
  begin
    integer procedure B;
    begin k := k - 1; B := A := A(k, B, x1, x2, x3, x4) end;
    if k <= 0 then A := x4 + x5 else B
  end;
  print(A(8, 1, -1, -1, 1, 0))
end
