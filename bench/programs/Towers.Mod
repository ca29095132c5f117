MODULE Towers;  (* The towers of Hanoi, on linked cells. *)
IMPORT Out;

TYPE Disk = POINTER TO DiskDesc; DiskDesc = RECORD size: LONGINT; below: Disk END;

VAR pegs: ARRAY 3 OF Disk; moves: LONGINT;

PROCEDURE Push(d: Disk; peg: LONGINT);
BEGIN
  IF pegs[peg] # NIL THEN ASSERT(d.size < pegs[peg].size) END;
  d.below := pegs[peg]; pegs[peg] := d
END Push;

PROCEDURE Pop(peg: LONGINT): Disk;
  VAR d: Disk;
BEGIN d := pegs[peg]; pegs[peg] := d.below; d.below := NIL; RETURN d
END Pop;

PROCEDURE Move(n, from, to: LONGINT);
  VAR other: LONGINT;
BEGIN
  IF n = 1 THEN Push(Pop(from), to); INC(moves)
  ELSE
    other := 3 - from - to;
    Move(n - 1, from, other);
    Move(1, from, to);
    Move(n - 1, other, to)
  END
END Move;

PROCEDURE Go*;
  VAR d: Disk; i: LONGINT;
BEGIN
  FOR i := 20 TO 1 BY -1 DO NEW(d); d.size := i; Push(d, 0) END;
  Move(20, 0, 2);
  Out.Int(moves, 0); Out.Ln
END Go;

END Towers.
