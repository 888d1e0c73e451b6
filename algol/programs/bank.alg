$JOB BANK
$QUANTUM 7
comment Two tasks take money from account 0 and put it into another one. Each says that it wants to, and lets the other
  one go first if both do (Peterson's algorithm), so none of the 100 is lost or made, whatever the turns are;
begin
  integer array account[0:2];
  integer first, second, turn, t1, t2, k;
  procedure move(amount, into, mine, other, me); value amount, into, me; integer amount, into, mine, other, me;
  begin
    integer n;
    for n := 1 step 1 until 5 do
    begin
      mine := 1; turn := 1 - me;
    again: if other = 1 and turn <> me then go to again;
      account[0] := account[0] - amount;
      account[into] := account[into] + amount;
      mine := 0
    end
  end move;
  account[0] := 100; first := second := turn := 0;
  t1 := process move(3, 1, first, second, 0);
  t2 := process move(10, 2, second, first, 1);
  await(t1); await(t2);
  printrow(account)
end
