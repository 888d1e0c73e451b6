$LIMIT 10000000
begin
  integer procedure ack(m, n); value m, n; integer m, n;
    if m = 0 then ack := n + 1
    else if n = 0 then ack := ack(m - 1, 1)
    else ack := ack(m - 1, ack(m, n - 1));
  print(ack(0, 0)); print(ack(1, 5)); print(ack(2, 9)); print(ack(3, 5))
end
