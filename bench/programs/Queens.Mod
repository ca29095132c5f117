MODULE Queens;  (* Eight queens on a board: all ways, two hundred times. *)
IMPORT Out;

VAR row, up, down: ARRAY 15 OF BOOLEAN; count: LONGINT;

PROCEDURE Try(col: LONGINT);
  VAR r: LONGINT;
BEGIN
  IF col = 8 THEN INC(count)
  ELSE
    FOR r := 0 TO 7 DO
      IF row[r] & up[col + r] & down[col - r + 7] THEN
        row[r] := FALSE; up[col + r] := FALSE; down[col - r + 7] := FALSE;
        Try(col + 1);
        row[r] := TRUE; up[col + r] := TRUE; down[col - r + 7] := TRUE
      END
    END
  END
END Try;

PROCEDURE Go*;
  VAR i: LONGINT;
BEGIN
  FOR i := 0 TO 14 DO row[i] := TRUE; up[i] := TRUE; down[i] := TRUE END;
  FOR i := 1 TO 200 DO Try(0) END;
  Out.Int(count, 0); Out.Ln
END Go;

END Queens.
