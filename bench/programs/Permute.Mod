MODULE Permute;  (* All permutations of ten numbers, by exchange. *)
IMPORT Out;

VAR p: ARRAY 11 OF LONGINT; count: LONGINT;

PROCEDURE Swap(VAR a, b: LONGINT);
  VAR t: LONGINT;
BEGIN t := a; a := b; b := t
END Swap;

PROCEDURE All(n: LONGINT);
  VAR k: LONGINT;
BEGIN
  INC(count);
  IF n # 1 THEN
    All(n - 1);
    FOR k := n - 1 TO 1 BY -1 DO
      Swap(p[n], p[k]);
      All(n - 1);
      Swap(p[n], p[k])
    END
  END
END All;

PROCEDURE Go*;
  VAR i: LONGINT;
BEGIN
  FOR i := 1 TO 10 DO p[i] := i END;
  All(10);
  Out.Int(count, 0); Out.Ln
END Go;

END Permute.
