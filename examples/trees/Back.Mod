MODULE Back;  (* A client of the third version: a tree from its end. *)

IMPORT Trees, Numbers, Words, Out;

PROCEDURE List(t: Trees.Tree);
  VAR i: Trees.Iterator;
BEGIN
  i.StartLast(t);
  WHILE i.element # NIL DO Out.Char(" "); i.element.Print; i.Next END;
  Out.Ln
END List;

PROCEDURE Go*;
BEGIN Numbers.Mixed; List(Numbers.tree); Words.Go; List(Words.tree)
END Go;

END Back.
