MODULE Bubble;  (* Bubble sort of numbers that look like chance. *)
IMPORT Out;

CONST N = 500; Times = 20;

VAR a: ARRAY N OF LONGINT; seed: LONGINT;

PROCEDURE Next(): LONGINT;
BEGIN seed := (seed * 1309 + 13849) MOD 65536; RETURN seed
END Next;

PROCEDURE Sort;
  VAR i, t, top: LONGINT;
BEGIN
  FOR top := N - 1 TO 1 BY -1 DO
    FOR i := 0 TO top - 1 DO
      IF a[i] > a[i + 1] THEN t := a[i]; a[i] := a[i + 1]; a[i + 1] := t END
    END
  END
END Sort;

PROCEDURE Go*;
  VAR i, k, sum: LONGINT;
BEGIN
  seed := 74755; sum := 0;
  FOR k := 1 TO Times DO
    FOR i := 0 TO N - 1 DO a[i] := Next() END;
    Sort;
    FOR i := 1 TO N - 1 DO ASSERT(a[i - 1] <= a[i]) END;
    sum := (sum + a[N DIV 2]) MOD 1000003
  END;
  Out.Int(sum, 0); Out.Ln
END Go;

END Bubble.
