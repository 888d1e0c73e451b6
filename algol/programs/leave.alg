comment Go tos out of procedures, labels and switches as parameters. With recursion a label means that of its own activation;
begin integer i, n; Boolean over;
  switch S := one, two, if n > 5 then three else one, 10;
  procedure leave(L); label L; begin n := n + 1; go to L end;
  integer procedure try(k); value k; integer k;
  begin if k > 3 then go to out; try := k * 10 end;
  procedure choose(T, k); value k; switch T; integer k; go to T[k];
  procedure deep(k, L); value k; integer k; label L;
  begin integer mine; mine := k;
    if k = 0 then go to L;
    if k = 3 then deep(k - 1, here) else deep(k - 1, L);
    print(100 + k); go to done;
  here: print(200 + mine);
  done:
  end;
  n := 0; over := false;
  leave(a); print(999);
a: print(n);
  print(try(2) + try(3));
  print(try(1) + try(4) * try(5));
  print(998);
out: i := 1;
next: go to S[i];
  print(997);
one: print(1); i := i + 1; if i < 3 then go to next; i := 3; n := 6; go to S[3];
two: print(2); n := 0; go to S[3];
three: print(3); go to S[4];
10: print(10); go to S[7];
  deep(5, end1); print(5);
  deep(2, end1); print(996);
end1: choose(S, 9);
  if not over then begin over := true; choose(S, 2) end;
  print(n)
end
