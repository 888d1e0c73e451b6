$QUANTUM 7
comment A producer and a consumer: the events are variables, as the MCP has them;
begin integer buffer, empty, full, t, k, sum;
  procedure producer(n); value n; integer n;
  begin integer i;
    for i := 1 step 1 until n do
    begin wait(empty); empty := 0; buffer := i * i; cause(full) end
  end;
  empty := 1; full := 0; sum := 0;
  t := process producer(5);
  for k := 1 step 1 until 5 do
  begin wait(full); full := 0; print(buffer); sum := sum + buffer; cause(empty) end;
  await(t); print(sum); print(status(t))
end
