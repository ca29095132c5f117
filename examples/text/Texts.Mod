MODULE Texts;  (* Texts in memory, line by line; what reads and writes them. *)

IMPORT Out;

CONST
  lineEnd* = 0AX;
  length = 160;                         (* of a line; what is beyond is left out *)

TYPE
  Line = POINTER TO LineDesc;
  LineDesc = RECORD
    text: ARRAY length OF CHAR;
    next: Line
  END;

  Text* = POINTER TO TextDesc;
  TextDesc* = RECORD
    lines-: LONGINT;
    first, last: Line
  END;

  (* Goes over a text. Behind each line it finds a lineEnd, and behind the
    last one 0X. Lines and columns are counted from 1. *)
  Reader* = RECORD
    ch-: CHAR;
    line-, col-: LONGINT;
    at: Line
  END;

  (* Puts lines together, and adds them to a text. *)
  Writer* = RECORD
    col-: LONGINT;                      (* of the next character *)
    buffer: ARRAY length OF CHAR;
    text: Text
  END;

(* Texts. *)

PROCEDURE New*(): Text;
  VAR t: Text;
BEGIN NEW(t); RETURN t
END New;

PROCEDURE (t: Text) Add*(line: ARRAY OF CHAR);
  VAR l: Line;
BEGIN
  NEW(l); COPY(line, l.text); INC(t.lines);
  IF t.first = NIL THEN t.first := l ELSE t.last.next := l END;
  t.last := l
END Add;

PROCEDURE (t: Text) Print*;
  VAR l: Line; n: LONGINT;
BEGIN
  l := t.first; n := 0;
  WHILE l # NIL DO
    INC(n); Out.Int(n, 3); Out.String("  "); Out.String(l.text); Out.Ln;
    l := l.next
  END
END Print;

PROCEDURE (t: Text) Equals*(other: Text): BOOLEAN;
  VAR k, l: Line;
BEGIN
  k := t.first; l := other.first;
  WHILE (k # NIL) & (l # NIL) & (k.text = l.text) DO k := k.next; l := l.next END;
  RETURN (k = NIL) & (l = NIL)
END Equals;

(* Readers. *)

PROCEDURE (VAR r: Reader) Look;
BEGIN
  IF r.at = NIL THEN r.ch := 0X
  ELSE
    r.ch := r.at.text[r.col - 1];
    IF r.ch = 0X THEN r.ch := lineEnd END
  END
END Look;

PROCEDURE (VAR r: Reader) Open*(t: Text);
BEGIN r.at := t.first; r.line := 1; r.col := 1; r.Look
END Open;

PROCEDURE (VAR r: Reader) Next*;
BEGIN
  IF r.ch = lineEnd THEN r.at := r.at.next; INC(r.line); r.col := 1
  ELSIF r.ch # 0X THEN INC(r.col)
  END;
  r.Look
END Next;

(* Writers. *)

PROCEDURE (VAR w: Writer) Open*(t: Text);
BEGIN w.text := t; w.col := 1
END Open;

PROCEDURE (VAR w: Writer) EndLine*;
BEGIN w.buffer[w.col - 1] := 0X; w.text.Add(w.buffer); w.col := 1
END EndLine;

PROCEDURE (VAR w: Writer) Char*(ch: CHAR);
BEGIN
  IF ch = lineEnd THEN w.EndLine
  ELSIF w.col < LEN(w.buffer) THEN w.buffer[w.col - 1] := ch; INC(w.col)
  END
END Char;

PROCEDURE (VAR w: Writer) String*(text: ARRAY OF CHAR);
  VAR i: LONGINT;
BEGIN
  i := 0;
  WHILE text[i] # 0X DO w.Char(text[i]); INC(i) END
END String;

END Texts.
