MODULE Words;  (* Another client of the first version: how often the words of
  a text come. *)

IMPORT Trees, Out;

TYPE
  Text = ARRAY 20 OF CHAR;

  Word = POINTER TO WordDesc;
  WordDesc = RECORD (Trees.ElementDesc)
    text: Text;
    count: LONGINT
  END;

VAR
  tree*: Trees.Tree;

PROCEDURE (w: Word) Before*(y: Trees.Element): BOOLEAN;
BEGIN RETURN w.text < y(Word).text
END Before;

PROCEDURE (w: Word) Print*;
BEGIN
  Out.String(w.text);
  IF w.count > 1 THEN Out.Char("*"); Out.Int(w.count, 0) END
END Print;

PROCEDURE Add(VAR text: Text);
  VAR w: Word; old: Trees.Element;
BEGIN
  NEW(w); w.text := text; w.count := 1;
  old := tree.Find(w);
  IF old = NIL THEN tree.Insert(w) ELSE INC(old(Word).count) END
END Add;

(* Adds the words of a line, which stand between blanks. *)
PROCEDURE Line*(line: ARRAY OF CHAR);
  VAR text: Text; i, k: INTEGER;
BEGIN
  i := 0;
  WHILE line[i] # 0X DO
    k := 0;
    WHILE (line[i] # " ") & (line[i] # 0X) DO
      IF k < LEN(text) - 1 THEN text[k] := line[i]; INC(k) END;
      INC(i)
    END;
    text[k] := 0X;
    IF k > 0 THEN Add(text) END;
    IF line[i] = " " THEN INC(i) END
  END
END Line;

PROCEDURE Go*;
BEGIN
  tree := Trees.New();
  Line("one for sorrow two for mirth three for a funeral four for a birth");
  Line("five for heaven six for hell seven for the devil his own self");
  tree.Print
END Go;

END Words.
