$JOB PL0
$STACK 900
$LIMIT 60000000
$TEXT begin call const do else end if odd procedure repeat then until var while
$TEXT const m = 7, n = 85;
$TEXT var x, y, z, q, r, k, count;
$TEXT procedure multiply;
$TEXT   var a, b;
$TEXT begin a := x; b := y; z := 0;
$TEXT   while b > 0 do
$TEXT   begin if odd b then z := z + a; a := 2 * a; b := b / 2 end
$TEXT end;
$TEXT procedure divide;
$TEXT   var w;
$TEXT begin r := x; q := 0; w := y;
$TEXT   while w <= r do w := 2 * w;
$TEXT   while w > y do
$TEXT   begin q := 2 * q; w := w / 2;
$TEXT     if w <= r then begin r := r - w; q := q + 1 end
$TEXT   end
$TEXT end;
$TEXT procedure gcd;
$TEXT   var f, g;
$TEXT begin f := x; g := y;
$TEXT   while f # g do
$TEXT   begin if f < g then g := g - f; if g < f then f := f - g end;
$TEXT   z := f
$TEXT end;
$TEXT procedure factorial;
$TEXT   procedure step;
$TEXT   begin if k > 1 then begin z := z * k; k := k - 1; call step end end;
$TEXT begin z := 1; k := x; call step end;
$TEXT procedure primes;
$TEXT   var p, d, prime;
$TEXT begin p := 2;
$TEXT   repeat
$TEXT     d := 2; prime := 1;
$TEXT     while d * d <= p do
$TEXT     begin if p - p / d * d = 0 then prime := 0; d := d + 1 end;
$TEXT     if prime = 1 then count := count + 1;
$TEXT     p := p + 1
$TEXT   until p > 100
$TEXT end;
$TEXT begin
$TEXT   x := m; y := n; call multiply; ! z;
$TEXT   x := 25; y := 3; call divide; ! q; ! r;
$TEXT   x := 84; y := 36; call gcd; ! z;
$TEXT   x := 10; call factorial; ! z;
$TEXT   count := 0; call primes; ! count;
$TEXT   ? x; ? y;
$TEXT   if x > y then ! x else ! y;
$TEXT   ! -(x - 2) * 3
$TEXT end.
$TEXT -17 42
comment A translator and an interpreter of PL/0, the language of N. Wirth's book Algorithms + Data Structures =
  Programs (1976), with `! e` to print, `? v` to read, `else` and `repeat`. The words of the language come first in
  the data, then the program up to its period, then the numbers that it reads. An error prints -n, Wirth's number of
  the error, then its line, and ends all: that go to leads out of as many procedures as are being carried out;
begin
  comment The symbols. Those of words are numbered from 21 on, in the order of the data;
  integer nul, ident, number, plus, minus, times, slash, equal, unequal, less, lessEqual, greater, greaterEqual,
    leftParen, rightParen, comma, semicolon, period, becomes, printSign, readSign;
  integer beginWord, callWord, constWord, doWord, elseWord, endWord, ifWord, oddWord, procedureWord,
    repeatWord, thenWord, untilWord, varWord, whileWord;
  comment The instructions of the machine for which code is made, and the kinds of names;
  integer lit, opr, lod, sto, cal, int, jmp, jpc, constant, variable, routine;
  comment The limits of both;
  integer mostWords, mostNames, mostCode, mostLevels, mostStore;
  comment What the scanner has: a character, its line, a symbol, and the word or the number that the symbol is;
  integer character, line, symbol, word, numeral;
  comment How much code there is;
  integer here;

  nul := 0; ident := 1; number := 2; plus := 3; minus := 4; times := 5; slash := 6;
  equal := 7; unequal := 8; less := 9; lessEqual := 10; greater := 11; greaterEqual := 12;
  leftParen := 13; rightParen := 14; comma := 15; semicolon := 16; period := 17; becomes := 18;
  printSign := 19; readSign := 20;
  beginWord := 21; callWord := 22; constWord := 23; doWord := 24; elseWord := 25; endWord := 26;
  ifWord := 27; oddWord := 28; procedureWord := 29; repeatWord := 30; thenWord := 31;
  untilWord := 32; varWord := 33; whileWord := 34;
  lit := 0; opr := 1; lod := 2; sto := 3; cal := 4; int := 5; jmp := 6; jpc := 7;
  constant := 1; variable := 2; routine := 3;
  mostWords := 14; mostNames := 100; mostCode := 500; mostLevels := 5; mostStore := 1000;

  begin
    comment The words of the language. The names, each with its kind, its level, and its value or address;
    integer array keyword[1:mostWords];
    integer array name, kind, level, address[0:mostNames];
    comment The code: of each instruction what it does, the difference of levels, and its operand;
    integer array f, l, a[0:mostCode];

    procedure error(n); value n; integer n;
    begin
      print(-n); print(line);
      go to stop
    end error;

    comment ---- The scanner;

    procedure getCharacter;
    begin
      if character = 10 then line := line + 1;
      character := read;
      if nomore(character) then character := 0
    end getCharacter;

    Boolean procedure isLetter(c); value c; integer c;
      isLetter := c >= 97 and c <= 122;

    Boolean procedure isDigit(c); value c; integer c;
      isDigit := c >= 48 and c <= 57;

    procedure skipSpaces;
      for character := character while character = 32 or character = 10 do getCharacter;

    comment A word of letters and digits as a number, of which the first seven characters count;
    integer procedure scannedWord;
    begin
      integer w, n;
      w := n := 0;
      for n := n + 1 while isLetter(character) or isDigit(character) do
      begin
        if n <= 7 then w := 37 * w + (if isLetter(character) then character - 96 else character - 21);
        getCharacter
      end;
      scannedWord := w
    end scannedWord;

    integer procedure scannedNumber;
    begin
      integer v;
      v := 0;
      for character := character while isDigit(character) do
      begin
        v := 10 * v + (character - 48);
        if v > 1000000000 then error(30);
        getCharacter
      end;
      scannedNumber := v
    end scannedNumber;

    procedure getWords;
    begin
      integer k;
      for k := 1 step 1 until mostWords do
      begin skipSpaces; keyword[k] := scannedWord end
    end getWords;

    comment The symbol of a word: that of the language, or `ident`;
    integer procedure symbolOf(w); value w; integer w;
    begin
      integer k;
      symbolOf := ident;
      for k := 1 step 1 until mostWords do
        if keyword[k] = w then symbolOf := beginWord + k - 1
    end symbolOf;

    comment A sign of one character, or of two if the second one is as wanted;
    procedure sign2(second, both, alone); value second, both, alone; integer second, both, alone;
    begin
      getCharacter;
      symbol := alone;
      if character = second then begin symbol := both; getCharacter end
    end sign2;

    procedure sign1(s); value s; integer s;
    begin symbol := s; getCharacter end sign1;

    procedure getSymbol;
    begin
      skipSpaces;
      if isLetter(character) then
      begin word := scannedWord; symbol := symbolOf(word) end
      else if isDigit(character) then
      begin numeral := scannedNumber; symbol := number end
      else if character = 58 then sign2(61, becomes, nul)
      else if character = 60 then sign2(61, lessEqual, less)
      else if character = 62 then sign2(61, greaterEqual, greater)
      else if character = 43 then sign1(plus)
      else if character = 45 then sign1(minus)
      else if character = 42 then sign1(times)
      else if character = 47 then sign1(slash)
      else if character = 61 then sign1(equal)
      else if character = 35 then sign1(unequal)
      else if character = 40 then sign1(leftParen)
      else if character = 41 then sign1(rightParen)
      else if character = 44 then sign1(comma)
      else if character = 59 then sign1(semicolon)
      else if character = 46 then sign1(period)
      else if character = 33 then sign1(printSign)
      else if character = 63 then sign1(readSign)
      else sign1(nul)
    end getSymbol;

    comment Takes a symbol that must come here. Else the error has this number;
    procedure take(s, n); value s, n; integer s, n;
      if symbol = s then getSymbol else error(n);

    comment ---- The code;

    procedure gen(x, y, z); value x, y, z; integer x, y, z;
    begin
      if here > mostCode then error(41);
      f[here] := x; l[here] := y; a[here] := z;
      here := here + 1
    end gen;

    comment Makes a jump whose target is not known yet. Its value is its place;
    integer procedure jump(x); value x; integer x;
    begin
      jump := here;
      gen(x, 0, 0)
    end jump;

    procedure arrive(place); value place; integer place;
      a[place] := here;

    comment ---- The names;

    comment The place of the last name that was entered and is the word in hand, 0 if there is none;
    integer procedure position(last); value last; integer last;
    begin
      integer k;
      name[0] := word;
      for k := last, k - 1 while name[k + 1] <> word do;
      position := k + 1
    end position;

    comment ---- Expressions. Each takes what it is made of, and gives code that leaves its value on the stack;

    procedure factor(lev, tx); value lev, tx; integer lev, tx;
    begin
      integer k;
      if symbol = ident then
      begin
        k := position(tx);
        if k = 0 then error(11);
        if kind[k] = constant then gen(lit, 0, address[k])
        else if kind[k] = variable then gen(lod, lev - level[k], address[k])
        else error(21);
        getSymbol
      end
      else if symbol = number then
      begin gen(lit, 0, numeral); getSymbol end
      else if symbol = leftParen then
      begin
        getSymbol;
        expression(lev, tx);
        take(rightParen, 22)
      end
      else error(23)
    end factor;

    procedure term(lev, tx); value lev, tx; integer lev, tx;
    begin
      integer operator;
      factor(lev, tx);
      for operator := symbol while operator = times or operator = slash do
      begin
        getSymbol;
        factor(lev, tx);
        gen(opr, 0, if operator = times then 4 else 5)
      end
    end term;

    procedure expression(lev, tx); value lev, tx; integer lev, tx;
    begin
      integer operator;
      operator := symbol;
      if operator = plus or operator = minus then getSymbol;
      term(lev, tx);
      if operator = minus then gen(opr, 0, 1);
      for operator := symbol while operator = plus or operator = minus do
      begin
        getSymbol;
        term(lev, tx);
        gen(opr, 0, if operator = plus then 2 else 3)
      end
    end expression;

    comment The operation of a relation, 0 if the symbol is none;
    integer procedure relation(s); value s; integer s;
      relation := if s = equal then 8 else if s = unequal then 9 else if s = less then 10
        else if s = greaterEqual then 11 else if s = greater then 12 else if s = lessEqual then 13 else 0;

    procedure condition(lev, tx); value lev, tx; integer lev, tx;
    begin
      integer operation;
      if symbol = oddWord then
      begin
        getSymbol;
        expression(lev, tx);
        gen(opr, 0, 6)
      end
      else
      begin
        expression(lev, tx);
        operation := relation(symbol);
        if operation = 0 then error(20);
        getSymbol;
        expression(lev, tx);
        gen(opr, 0, operation)
      end
    end condition;

    comment ---- Statements;

    comment The place of the variable in hand;
    integer procedure variableHere(tx); value tx; integer tx;
    begin
      integer k;
      if symbol <> ident then error(4);
      k := position(tx);
      if k = 0 then error(11);
      if kind[k] <> variable then error(12);
      getSymbol;
      variableHere := k
    end variableHere;

    procedure assignment(lev, tx); value lev, tx; integer lev, tx;
    begin
      integer k;
      k := variableHere(tx);
      take(becomes, 13);
      expression(lev, tx);
      gen(sto, lev - level[k], address[k])
    end assignment;

    procedure callStatement(lev, tx); value lev, tx; integer lev, tx;
    begin
      integer k;
      getSymbol;
      if symbol <> ident then error(14);
      k := position(tx);
      if k = 0 then error(11);
      if kind[k] <> routine then error(15);
      gen(cal, lev - level[k], address[k]);
      getSymbol
    end callStatement;

    procedure ifStatement(lev, tx); value lev, tx; integer lev, tx;
    begin
      integer otherwise, done;
      getSymbol;
      condition(lev, tx);
      take(thenWord, 16);
      otherwise := jump(jpc);
      statement(lev, tx);
      if symbol = elseWord then
      begin
        getSymbol;
        done := jump(jmp);
        arrive(otherwise);
        statement(lev, tx);
        arrive(done)
      end
      else arrive(otherwise)
    end ifStatement;

    procedure whileStatement(lev, tx); value lev, tx; integer lev, tx;
    begin
      integer again, done;
      again := here;
      getSymbol;
      condition(lev, tx);
      done := jump(jpc);
      take(doWord, 18);
      statement(lev, tx);
      gen(jmp, 0, again);
      arrive(done)
    end whileStatement;

    comment Statements with semicolons between;
    procedure sequence(lev, tx); value lev, tx; integer lev, tx;
    begin
      statement(lev, tx);
      for symbol := symbol while symbol = semicolon do
      begin getSymbol; statement(lev, tx) end
    end sequence;

    procedure repeatStatement(lev, tx); value lev, tx; integer lev, tx;
    begin
      integer again;
      again := here;
      getSymbol;
      sequence(lev, tx);
      take(untilWord, 17);
      condition(lev, tx);
      gen(jpc, 0, again)
    end repeatStatement;

    procedure statement(lev, tx); value lev, tx; integer lev, tx;
    begin
      integer k;
      if symbol = ident then assignment(lev, tx)
      else if symbol = callWord then callStatement(lev, tx)
      else if symbol = ifWord then ifStatement(lev, tx)
      else if symbol = whileWord then whileStatement(lev, tx)
      else if symbol = repeatWord then repeatStatement(lev, tx)
      else if symbol = beginWord then
      begin
        getSymbol;
        sequence(lev, tx);
        take(endWord, 17)
      end
      else if symbol = printSign then
      begin
        getSymbol;
        expression(lev, tx);
        gen(opr, 0, 14)
      end
      else if symbol = readSign then
      begin
        getSymbol;
        k := variableHere(tx);
        gen(opr, 0, 15);
        gen(sto, lev - level[k], address[k])
      end
    end statement;

    comment ---- Blocks;

    procedure block(lev, tx); value lev, tx; integer lev, tx;
    begin
      comment The next address of a variable, where the block's own names begin, and the jump to its statements;
      integer dx, tx0, start;

      procedure enter(k, at); value k, at; integer k, at;
      begin
        tx := tx + 1;
        if tx > mostNames then error(42);
        name[tx] := word; kind[tx] := k; level[tx] := lev; address[tx] := at
      end enter;

      procedure constDeclaration;
      begin
        integer w;
        if symbol <> ident then error(4);
        w := word;
        getSymbol;
        take(equal, 3);
        if symbol <> number then error(2);
        word := w;
        enter(constant, numeral);
        getSymbol
      end constDeclaration;

      procedure varDeclaration;
      begin
        if symbol <> ident then error(4);
        enter(variable, dx);
        dx := dx + 1;
        getSymbol
      end varDeclaration;

      comment Declarations of one kind with commas between, up to a semicolon;
      procedure list(declare); procedure declare;
      begin
        getSymbol;
        declare;
        for symbol := symbol while symbol = comma do
        begin getSymbol; declare end;
        take(semicolon, 5)
      end list;

      procedure procedureDeclaration;
      begin
        getSymbol;
        if symbol <> ident then error(4);
        enter(routine, here);
        getSymbol;
        take(semicolon, 5);
        block(lev + 1, tx);
        take(semicolon, 5)
      end procedureDeclaration;

      if lev > mostLevels then error(32);
      dx := 3; tx0 := tx;
      start := jump(jmp);
      address[tx0] := start;
      for symbol := symbol while symbol = constWord do list(constDeclaration);
      for symbol := symbol while symbol = varWord do list(varDeclaration);
      for symbol := symbol while symbol = procedureWord do procedureDeclaration;
      arrive(start);
      gen(int, 0, dx);
      statement(lev, tx);
      gen(opr, 0, 0)
    end block;

    comment ---- The machine that carries the code out: three words of links in each record, then its variables;

    procedure interpret;
    begin
      integer array s[0:mostStore];
      integer p, b, t, i;

      comment The base of the record that is so many levels further out;
      integer procedure base(levels); value levels; integer levels;
      begin
        integer b1;
        b1 := b;
        for levels := levels while levels > 0 do
        begin b1 := s[b1]; levels := levels - 1 end;
        base := b1
      end base;

      procedure push(v); value v; integer v;
      begin t := t + 1; s[t] := v end push;

      comment Puts a value in the place of the two words on top;
      procedure replace(v); value v; integer v;
      begin t := t - 1; s[t] := v end replace;

      procedure truth(c); value c; Boolean c;
        replace(if c then 1 else 0);

      integer procedure numberRead;
      begin
        integer n;
        skipSpaces;
        n := if character = 45 then -1 else 1;
        if character = 45 then getCharacter;
        numberRead := n * scannedNumber
      end numberRead;

      procedure operation(n); value n; integer n;
      begin
        switch operations := return, negate, add, subtract, multiply, divide, isOdd, none,
          isEqual, isUnequal, isLess, isNotLess, isGreater, isNotGreater, show, ask;
        go to operations[n + 1];
      return: t := b - 1; p := s[t + 3]; b := s[t + 2]; go to done;
      negate: s[t] := -s[t]; go to done;
      add: replace(s[t - 1] + s[t]); go to done;
      subtract: replace(s[t - 1] - s[t]); go to done;
      multiply: replace(s[t - 1] * s[t]); go to done;
      divide: replace(s[t - 1] div s[t]); go to done;
      isOdd: s[t] := abs(s[t] mod 2); go to done;
      isEqual: truth(s[t - 1] = s[t]); go to done;
      isUnequal: truth(s[t - 1] <> s[t]); go to done;
      isLess: truth(s[t - 1] < s[t]); go to done;
      isNotLess: truth(s[t - 1] >= s[t]); go to done;
      isGreater: truth(s[t - 1] > s[t]); go to done;
      isNotGreater: truth(s[t - 1] <= s[t]); go to done;
      show: print(s[t]); t := t - 1; go to done;
      ask: push(numberRead);
      none:
      done:
      end operation;

      t := -1; b := 0; p := 0;
      s[0] := s[1] := s[2] := 0;
      for i := 0, p while p <> 0 do
      begin
        p := p + 1;
        if f[i] = lit then push(a[i])
        else if f[i] = opr then operation(a[i])
        else if f[i] = lod then push(s[base(l[i]) + a[i]])
        else if f[i] = sto then
        begin s[base(l[i]) + a[i]] := s[t]; t := t - 1 end
        else if f[i] = cal then
        begin
          s[t + 1] := base(l[i]); s[t + 2] := b; s[t + 3] := p;
          b := t + 1; p := a[i]
        end
        else if f[i] = int then t := t + a[i]
        else if f[i] = jmp then p := a[i]
        else
        begin
          if s[t] = 0 then p := a[i];
          t := t - 1
        end
      end
    end interpret;

    line := 0; here := 0;
    getCharacter;
    getWords;
    line := 1;
    getSymbol;
    block(0, 0);
    if symbol <> period then error(9);
    interpret;
  stop:
  end
end
