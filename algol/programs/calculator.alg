$JOB CALCULATOR
$STACK 700
$TEXT 1 + 2 * 3
$TEXT (1 + 2) * 3
$TEXT 2 ^ 3 ^ 2 - 100
$TEXT -(4 - 10) * (7 / 2) % 5
$TEXT a = 6
$TEXT b = a * (a + 1)
$TEXT b / 0 + 1
$TEXT b - a
$TEXT 2 * (3 + 4
$TEXT 7 7
$TEXT 1000 / 7 / 2
comment An interpreter of arithmetic, a line at a time: + - * / % ^ with its powers from the right, parentheses, the
  variables a to z, and `a = e` to give one its value. A line with a mistake prints -999: a label is handed down to
  where it is found, and the go to leads out of all procedures between;
begin
  integer c; integer array variable[97:122];

  procedure next; begin c := read; if nomore(c) then c := 0; if c = 32 then next end;

  integer procedure expression(wrong); label wrong;
  begin integer v, op; v := term(wrong);
    for op := c while op = 43 or op = 45 do
    begin next; v := if op = 43 then v + term(wrong) else v - term(wrong) end;
    expression := v
  end expression;

  integer procedure term(wrong); label wrong;
  begin integer v, w, op; v := power(wrong);
    for op := c while op = 42 or op = 47 or op = 37 do
    begin next; w := power(wrong);
      if op <> 42 and w = 0 then go to wrong;
      v := if op = 42 then v * w else if op = 47 then v div w else v mod w
    end;
    term := v
  end term;

  integer procedure power(wrong); label wrong;
  begin integer v; v := primary(wrong);
    if c = 94 then begin next; v := v ^ power(wrong) end;
    power := v
  end power;

  integer procedure primary(wrong); label wrong;
  begin integer v;
    if c = 45 then begin next; v := -primary(wrong) end
    else if c = 40 then
    begin next; v := expression(wrong);
      if c <> 41 then go to wrong;
      next
    end
    else if c >= 48 and c <= 57 then
    begin v := 0; for c := c while c >= 48 and c <= 57 do begin v := 10 * v + c - 48; c := read end;
      if c = 32 then next
    end
    else if c >= 97 and c <= 122 then
    begin integer name; name := c; next;
      if c = 61 then begin next; variable[name] := expression(wrong) end;
      v := variable[name]
    end
    else go to wrong;
    primary := v
  end primary;

  procedure skipLine; for c := c while c <> 10 and c <> 0 do next;

  procedure line;
  begin integer v; v := expression(mistake);
    if c <> 10 then go to mistake;
    print(v); go to done;
  mistake: print(-999); skipLine;
  done:
  end line;

  for c := 97 step 1 until 122 do variable[c] := 0;
  c := 97;
  next;
  for c := c while c <> 0 do begin line; next end
end
