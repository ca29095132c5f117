MODULE Puzzle;  (* Blocks are packed into a box, by search. *)
IMPORT Out;

CONST Last = 511; D = 8; Kinds = 13; Times = 10;

VAR
  full: ARRAY Last + 1 OF BOOLEAN;
  piece: ARRAY Kinds, Last + 1 OF BOOLEAN;
  class, end: ARRAY Kinds OF LONGINT;
  left: ARRAY 4 OF LONGINT;
  tries: LONGINT;

PROCEDURE Fits(i, at: LONGINT): BOOLEAN;
  VAR k: LONGINT;
BEGIN
  FOR k := 0 TO end[i] DO
    IF piece[i, k] & full[at + k] THEN RETURN FALSE END
  END;
  RETURN TRUE
END Fits;

PROCEDURE Place(i, at: LONGINT): LONGINT;
  VAR k: LONGINT;
BEGIN
  FOR k := 0 TO end[i] DO
    IF piece[i, k] THEN full[at + k] := TRUE END
  END;
  DEC(left[class[i]]);
  FOR k := at TO Last DO
    IF ~full[k] THEN RETURN k END
  END;
  RETURN 0
END Place;

PROCEDURE Remove(i, at: LONGINT);
  VAR k: LONGINT;
BEGIN
  FOR k := 0 TO end[i] DO
    IF piece[i, k] THEN full[at + k] := FALSE END
  END;
  INC(left[class[i]])
END Remove;

PROCEDURE Try(at: LONGINT): BOOLEAN;
  VAR i, next: LONGINT;
BEGIN
  INC(tries);
  FOR i := 0 TO Kinds - 1 DO
    IF (left[class[i]] # 0) & Fits(i, at) THEN
      next := Place(i, at);
      IF (next = 0) OR Try(next) THEN RETURN TRUE END;
      Remove(i, at)
    END
  END;
  RETURN FALSE
END Try;

PROCEDURE Define(i, a, b, c, kind: LONGINT);
  VAR x, y, z: LONGINT;
BEGIN
  FOR x := 0 TO a DO
    FOR y := 0 TO b DO
      FOR z := 0 TO c DO piece[i, x + D * (y + D * z)] := TRUE END
    END
  END;
  class[i] := kind; end[i] := a + D * (b + D * c)
END Define;

PROCEDURE Solve;
  VAR i, x, y, z, at: LONGINT;
BEGIN
  FOR i := 0 TO Last DO full[i] := TRUE END;
  FOR x := 1 TO 5 DO
    FOR y := 1 TO 5 DO
      FOR z := 1 TO 5 DO full[x + D * (y + D * z)] := FALSE END
    END
  END;
  left[0] := 13; left[1] := 3; left[2] := 1; left[3] := 1;
  at := 1 + D * (1 + D);
  ASSERT(Fits(0, at));
  ASSERT(Try(Place(0, at)))
END Solve;

PROCEDURE Go*;
  VAR i: LONGINT;
BEGIN
  Define(0, 3, 1, 0, 0); Define(1, 1, 0, 3, 0); Define(2, 0, 3, 1, 0);
  Define(3, 1, 3, 0, 0); Define(4, 3, 0, 1, 0); Define(5, 0, 1, 3, 0);
  Define(6, 2, 0, 0, 1); Define(7, 0, 2, 0, 1); Define(8, 0, 0, 2, 1);
  Define(9, 1, 1, 0, 2); Define(10, 1, 0, 1, 2); Define(11, 0, 1, 1, 2);
  Define(12, 1, 1, 1, 3);
  FOR i := 1 TO Times DO Solve END;
  Out.Int(tries, 0); Out.Ln
END Go;

END Puzzle.
