begin integer number, full, t;
  procedure consumer;
  begin wait(full); print(number) end;
  number := 0; full := 0;
  t := process consumer;
  number := 7;
  cause(full);
  await(t)
end
