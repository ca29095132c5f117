MODULE Concord;  (* A concordance: the names of a text in their order, each
  with the lines in which it stands. *)

IMPORT Texts, Symbols, Scanner, Out;

TYPE
  Name = ARRAY 24 OF CHAR;

  Place = POINTER TO PlaceDesc;
  PlaceDesc = RECORD
    line: LONGINT;
    next: Place
  END;

  Entry = POINTER TO EntryDesc;
  EntryDesc = RECORD                    (* a node of a tree *)
    name: Name;
    first, last: Place;
    left, right: Entry
  END;

  Concordance* = POINTER TO ConcordanceDesc;
  ConcordanceDesc* = RECORD
    names-: LONGINT;
    root: Entry
  END;

PROCEDURE (c: Concordance) Find(VAR e: Entry; VAR name: Name): Entry;
BEGIN
  IF e = NIL THEN NEW(e); e.name := name; INC(c.names); RETURN e
  ELSIF name < e.name THEN RETURN c.Find(e.left, name)
  ELSIF name > e.name THEN RETURN c.Find(e.right, name)
  ELSE RETURN e
  END
END Find;

PROCEDURE (e: Entry) Add(line: LONGINT);
  VAR p: Place;
BEGIN
  IF (e.last # NIL) & (e.last.line = line) THEN RETURN END;
  NEW(p); p.line := line;
  IF e.first = NIL THEN e.first := p ELSE e.last.next := p END;
  e.last := p
END Add;

PROCEDURE Of*(t: Texts.Text): Concordance;
  VAR c: Concordance; s: Scanner.Scanner; name: Name; e: Entry;
BEGIN
  NEW(c); s.Open(t);
  WHILE s.kind # Symbols.end DO
    IF s.kind = Symbols.name THEN
      COPY(s.text, name); e := c.Find(c.root, name); e.Add(s.line)
    END;
    s.Next
  END;
  RETURN c
END Of;

PROCEDURE PrintEntries(e: Entry);
  VAR p: Place; i: INTEGER;
BEGIN
  IF e # NIL THEN
    PrintEntries(e.left);
    Out.String("  "); Out.String(e.name);
    i := 0; WHILE e.name[i] # 0X DO INC(i) END;
    WHILE i < 12 DO Out.Char(" "); INC(i) END;
    p := e.first;
    WHILE p # NIL DO Out.Char(" "); Out.Int(p.line, 0); p := p.next END;
    Out.Ln;
    PrintEntries(e.right)
  END
END PrintEntries;

PROCEDURE (c: Concordance) Print*;
BEGIN Out.Int(c.names, 0); Out.String(" names"); Out.Ln; PrintEntries(c.root)
END Print;

END Concord.
