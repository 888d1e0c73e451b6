begin integer i, j; integer array struck[2:20];
  for i := 2 step 1 until 20 do struck[i] := 0;
  for i := 2 step 1 until 20 do
    if struck[i] = 0 then
      begin
        print(i);
        for j := 2 * i step i until 20 do struck[j] := 1
      end
end
