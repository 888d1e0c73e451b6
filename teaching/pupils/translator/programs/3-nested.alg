begin integer x;
  procedure outer(n); value n; integer n;
  begin integer y;
    procedure inner;
    begin y := y + n; x := x + n end;
    y := 0;
    inner; inner; inner;
    print(y)
  end;
  x := 0;
  outer(4);
  print(x)
end
