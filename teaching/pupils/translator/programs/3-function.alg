begin
  integer procedure sq(n); value n; integer n;
    sq := n * n;
  print(sq(7));
  print(sq(sq(2) + 1))
end
