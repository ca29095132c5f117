MODULE Show;  (* The commands. *)

IMPORT Texts, Symbols, Scanner, Counts, Concord, Pretty, Samples, Out;

PROCEDURE Source*;
BEGIN Samples.gcd.Print
END Source;

PROCEDURE Table*;
BEGIN Symbols.Describe
END Table;

(* The symbols of a text, each with its place and the number of its kind. *)
PROCEDURE List(t: Texts.Text; limit: INTEGER);
  VAR s: Scanner.Scanner; n: INTEGER;
BEGIN
  s.Open(t); n := 0;
  WHILE (s.kind # Symbols.end) & (n < limit) DO
    Out.Int(s.line, 3); Out.Char(":"); Out.Int(s.col, 0);
    IF s.col < 10 THEN Out.Char(" ") END;
    Out.Int(s.kind, 4); Out.String("  "); Out.String(s.text);
    IF s.kind = Symbols.fault THEN Out.String("   is no symbol") END;
    Out.Ln; INC(n); s.Next
  END
END List;

PROCEDURE First*;
BEGIN List(Samples.gcd, 20)
END First;

PROCEDURE Faults*;
BEGIN List(Samples.faulty, 100)
END Faults;

PROCEDURE Count*;
  VAR c: Counts.Counts;
BEGIN c.Take(Samples.gcd); c.Print
END Count;

PROCEDURE Concordance*;
  VAR c: Concord.Concordance;
BEGIN c := Concord.Of(Samples.gcd); c.Print
END Concordance;

PROCEDURE Neat*;
  VAR t: Texts.Text;
BEGIN t := Pretty.Of(Samples.gcd); t.Print
END Neat;

(* What is neat stays as it is, and its symbols are those of the source. *)
PROCEDURE Compare*;
  VAR t, u: Texts.Text; c, d: Counts.Counts; i: INTEGER; same: BOOLEAN;
BEGIN
  t := Pretty.Of(Samples.gcd); u := Pretty.Of(t);
  Out.Int(t.lines, 0); Out.String(" lines, ");
  IF u.Equals(t) THEN Out.String("the same again") ELSE Out.String("others again") END;
  c.Take(Samples.gcd); d.Take(t); same := TRUE;
  FOR i := 0 TO Symbols.lastWord DO same := same & (c.of[i] = d.of[i]) END;
  IF same THEN Out.String(", the same symbols") ELSE Out.String(", other symbols") END;
  Out.Ln
END Compare;

END Show.
