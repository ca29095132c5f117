MODULE Report;  (* A client of the second version. It goes over the trees of
  the older clients, and takes numbers out of them. *)

IMPORT Trees, Numbers, Words, Out;

(* The elements of a tree, six in a line. *)
PROCEDURE List(t: Trees.Tree);
  VAR i: Trees.Iterator; n: INTEGER;
BEGIN
  n := 0; i.Start(t);
  WHILE i.element # NIL DO
    Out.String("  "); i.element.Print; INC(n); i.Next;
    IF (n MOD 6 = 0) OR (i.element = NIL) THEN Out.Ln END
  END
END List;

PROCEDURE All*;
BEGIN Numbers.Mixed; List(Numbers.tree); Words.Go; List(Words.tree)
END All;

PROCEDURE Drop(t: Trees.Tree; value: LONGINT);
BEGIN
  IF Trees.Remove(t, Numbers.New(value)) = NIL THEN
    Out.Int(value, 0); Out.String(" is not there"); Out.Ln
  END
END Drop;

(* Prime numbers are what is left of 2 to 60 without all multiples. *)
PROCEDURE Sieve*;
  VAR t: Trees.Tree; i, k: LONGINT;
BEGIN
  t := Trees.New(); Numbers.Fill(t, 2, 60);
  FOR i := 2 TO 7 DO
    FOR k := i TO 60 DIV i DO
      IF Numbers.Has(t, i * k) THEN Drop(t, i * k) END
    END
  END;
  List(t); Numbers.Describe(t); Drop(t, 51)
END Sieve;

(* The numbers that two trees have both: two iterators, step by step. *)
PROCEDURE Common*;
  VAR s, t: Trees.Tree; i, k: Trees.Iterator; n: LONGINT;
BEGIN
  s := Trees.New(); t := Trees.New();
  FOR n := 1 TO 30 DO
    s.Insert(Numbers.New(n * n)); t.Insert(Numbers.New(12 * n + 1))
  END;
  i.Start(s); k.Start(t);
  WHILE (i.element # NIL) & (k.element # NIL) DO
    IF i.element.Before(k.element) THEN i.Next
    ELSIF k.element.Before(i.element) THEN k.Next
    ELSE Out.String("  "); i.element.Print; i.Next; k.Next
    END
  END;
  Out.Ln
END Common;

(* Balanced after each change: the greatest height is told. *)
PROCEDURE Busy*;
  VAR t: Trees.Tree; i: INTEGER; x, most: LONGINT; e: Trees.Element;
BEGIN
  t := Trees.New(); x := 7; most := 0;
  FOR i := 1 TO 1000 DO
    x := (x * 75 + 74) MOD 65537;
    IF ODD(x) THEN t.Insert(Numbers.New(x MOD 128))
    ELSE e := Trees.Remove(t, Numbers.New(x MOD 128))
    END;
    IF Trees.Height(t) > most THEN most := Trees.Height(t) END
  END;
  List(t); Numbers.Describe(t);
  Out.String("at most "); Out.Int(most, 0); Out.Ln
END Busy;

(* An iterator does not go on over a tree that has changed. *)
PROCEDURE Wrong*;
  VAR i: Trees.Iterator;
BEGIN
  i.Start(Numbers.tree);
  WHILE i.element # NIL DO
    Out.Char(" "); i.element.Print;
    IF i.element(Numbers.Number).value > 20 THEN
      Numbers.tree.Insert(Numbers.New(1000))
    END;
    i.Next
  END
END Wrong;

END Report.
