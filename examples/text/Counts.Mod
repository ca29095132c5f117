MODULE Counts;  (* How many symbols of each kind a text has. *)

IMPORT Texts, Symbols, Scanner, Out;

TYPE
  Counts* = RECORD
    of-: ARRAY Symbols.lastWord + 1 OF LONGINT;   (* by kind *)
    all-: LONGINT
  END;

PROCEDURE (VAR c: Counts) Take*(t: Texts.Text);
  VAR s: Scanner.Scanner; i: INTEGER;
BEGIN
  FOR i := 0 TO Symbols.lastWord DO c.of[i] := 0 END;
  c.all := 0; s.Open(t);
  WHILE s.kind # Symbols.end DO INC(c.of[s.kind]); INC(c.all); s.Next END
END Take;

(* Of the kinds from a to b. *)
PROCEDURE (VAR c: Counts) Sum*(a, b: INTEGER): LONGINT;
  VAR i: INTEGER; sum: LONGINT;
BEGIN
  sum := 0;
  FOR i := a TO b DO sum := sum + c.of[i] END;
  RETURN sum
END Sum;

PROCEDURE Row(what: ARRAY OF CHAR; n: LONGINT);
BEGIN
  IF n > 0 THEN Out.Int(n, 5); Out.Char(" "); Out.String(what); Out.Ln END
END Row;

(* The reserved words, with a bar for each, the most frequent first. *)
PROCEDURE (VAR c: Counts) Bars;
  VAR kind, most: INTEGER; n: LONGINT; left: ARRAY 2 OF SET;
BEGIN
  left[0] := {0 .. 31}; left[1] := {0 .. 1};        (* the words that are left *)
  LOOP
    most := -1;
    FOR kind := 0 TO Symbols.lastWord - Symbols.firstWord DO
      IF (kind MOD 32 IN left[kind DIV 32])
        & (c.of[Symbols.firstWord + kind] > 0) THEN
        IF most < 0 THEN most := kind
        ELSIF c.of[Symbols.firstWord + kind] > c.of[Symbols.firstWord + most] THEN
          most := kind
        END
      END
    END;
    IF most < 0 THEN EXIT END;
    EXCL(left[most DIV 32], most MOD 32);
    kind := Symbols.firstWord + most;
    Out.Int(c.of[kind], 5); Out.Char(" ");
    FOR n := 1 TO c.of[kind] DO Out.Char("=") END;
    Out.Char(" "); Out.String(Symbols.words[kind]); Out.Ln
  END
END Bars;

PROCEDURE (VAR c: Counts) Print*;
BEGIN
  Out.Int(c.all, 5); Out.String(" symbols, of them"); Out.Ln;
  Row("names", c.of[Symbols.name]);
  Row("numbers", c.of[Symbols.number]);
  Row("characters", c.of[Symbols.character]);
  Row("strings", c.of[Symbols.string]);
  Row("marks", c.Sum(Symbols.plus, Symbols.closeSet));
  Row("comments", c.of[Symbols.comment]);
  Row("faults", c.of[Symbols.fault]);
  Row("reserved words", c.Sum(Symbols.firstWord, Symbols.lastWord));
  c.Bars
END Print;

END Counts.
