MODULE Quick;  (* Quicksort of numbers that look like chance. *)
IMPORT Out;

CONST N = 5000; Times = 20;

VAR a: ARRAY N OF LONGINT; seed: LONGINT;

PROCEDURE Next(): LONGINT;
BEGIN seed := (seed * 1309 + 13849) MOD 65536; RETURN seed
END Next;

PROCEDURE Sort(VAR a: ARRAY OF LONGINT; low, high: LONGINT);
  VAR i, j, pivot, t: LONGINT;
BEGIN
  i := low; j := high; pivot := a[(low + high) DIV 2];
  REPEAT
    WHILE a[i] < pivot DO INC(i) END;
    WHILE pivot < a[j] DO DEC(j) END;
    IF i <= j THEN
      t := a[i]; a[i] := a[j]; a[j] := t;
      INC(i); DEC(j)
    END
  UNTIL i > j;
  IF low < j THEN Sort(a, low, j) END;
  IF i < high THEN Sort(a, i, high) END
END Sort;

PROCEDURE Go*;
  VAR i, k, sum: LONGINT;
BEGIN
  seed := 74755; sum := 0;
  FOR k := 1 TO Times DO
    FOR i := 0 TO N - 1 DO a[i] := Next() END;
    Sort(a, 0, N - 1);
    FOR i := 1 TO N - 1 DO ASSERT(a[i - 1] <= a[i]) END;
    sum := (sum + a[N DIV 2]) MOD 1000003
  END;
  Out.Int(sum, 0); Out.Ln
END Go;

END Quick.
