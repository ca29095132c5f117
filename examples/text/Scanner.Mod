MODULE Scanner;  (* Takes a text of Oberon-2 apart into symbols. *)

IMPORT Texts, Symbols;

TYPE
  Scanner* = RECORD
    kind-: INTEGER;                     (* of Symbols *)
    text-: ARRAY 600 OF CHAR;           (* as it stands, a comment's too *)
    line-, col-: LONGINT;               (* where it begins *)
    length-: INTEGER;                   (* of text *)
    r: Texts.Reader
  END;

PROCEDURE IsLetter(ch: CHAR): BOOLEAN;
BEGIN RETURN (ch >= "a") & (ch <= "z") OR (ch >= "A") & (ch <= "Z")
END IsLetter;

PROCEDURE IsDigit(ch: CHAR): BOOLEAN;
BEGIN RETURN (ch >= "0") & (ch <= "9")
END IsDigit;

(* The present character becomes the next one of the symbol. *)
PROCEDURE (VAR s: Scanner) Take;
BEGIN
  IF s.length < LEN(s.text) - 1 THEN s.text[s.length] := s.r.ch; INC(s.length) END;
  s.r.Next
END Take;

(* Whether ch is the present character; then it is taken. *)
PROCEDURE (VAR s: Scanner) Took(ch: CHAR): BOOLEAN;
BEGIN
  IF s.r.ch = ch THEN s.Take; RETURN TRUE ELSE RETURN FALSE END
END Took;

PROCEDURE (VAR s: Scanner) Word;
BEGIN
  WHILE IsLetter(s.r.ch) OR IsDigit(s.r.ch) DO s.Take END;
  s.text[s.length] := 0X; s.kind := Symbols.Find(s.text)
END Word;

(* The character behind digits tells what they are, so a copy of the reader
  looks ahead: 12, 0CH, 0CX, and 1..5 are right, 1.5 is not of this language. *)
PROCEDURE (VAR s: Scanner) Number;
  VAR ahead: Texts.Reader; ch: CHAR;
BEGIN
  ahead := s.r;
  WHILE IsDigit(ahead.ch) OR (ahead.ch >= "A") & (ahead.ch <= "F") DO ahead.Next END;
  ch := ahead.ch;
  IF (ch = "H") OR (ch = "X") THEN
    WHILE s.r.ch # ch DO s.Take END;
    s.Take;
    IF ch = "H" THEN s.kind := Symbols.number ELSE s.kind := Symbols.character END
  ELSE
    WHILE IsDigit(s.r.ch) DO s.Take END;
    s.kind := Symbols.number;
    IF s.r.ch = "." THEN
      ahead := s.r; ahead.Next;
      IF ahead.ch # "." THEN
        s.kind := Symbols.fault; s.Take;
        WHILE IsDigit(s.r.ch) DO s.Take END
      END
    END
  END
END Number;

PROCEDURE (VAR s: Scanner) String;
  VAR mark: CHAR;
BEGIN
  mark := s.r.ch; s.kind := Symbols.string;
  REPEAT s.Take UNTIL (s.r.ch = mark) OR (s.r.ch = Texts.lineEnd);
  IF ~s.Took(mark) THEN s.kind := Symbols.fault END
END String;

(* What stands behind the opening mark, which was taken. Comments nest. *)
PROCEDURE (VAR s: Scanner) Comment;
  VAR depth: INTEGER;
BEGIN
  s.kind := Symbols.comment; depth := 1;
  REPEAT
    IF s.Took("(") THEN
      IF s.Took("*") THEN INC(depth) END
    ELSIF s.Took("*") THEN
      IF s.Took(")") THEN DEC(depth) END
    ELSIF s.r.ch = 0X THEN
      s.kind := Symbols.fault; depth := 0
    ELSE s.Take
    END
  UNTIL depth = 0
END Comment;

PROCEDURE (VAR s: Scanner) Mark;
  VAR ch: CHAR;
BEGIN
  ch := s.r.ch; s.Take;
  CASE ch OF
    "+": s.kind := Symbols.plus
  | "-": s.kind := Symbols.minus
  | "*": s.kind := Symbols.times
  | "/": s.kind := Symbols.slash
  | "~": s.kind := Symbols.not
  | "&": s.kind := Symbols.and
  | "=": s.kind := Symbols.equal
  | "#": s.kind := Symbols.unequal
  | ",": s.kind := Symbols.comma
  | ";": s.kind := Symbols.semicolon
  | "|": s.kind := Symbols.bar
  | "^": s.kind := Symbols.arrow
  | ")": s.kind := Symbols.close
  | "[": s.kind := Symbols.openIndex
  | "]": s.kind := Symbols.closeIndex
  | "{": s.kind := Symbols.openSet
  | "}": s.kind := Symbols.closeSet
  | "(": IF s.Took("*") THEN s.Comment ELSE s.kind := Symbols.open END
  | "<": IF s.Took("=") THEN s.kind := Symbols.notMore ELSE s.kind := Symbols.less END
  | ">": IF s.Took("=") THEN s.kind := Symbols.notLess ELSE s.kind := Symbols.more END
  | ":": IF s.Took("=") THEN s.kind := Symbols.becomes ELSE s.kind := Symbols.colon END
  | ".": IF s.Took(".") THEN s.kind := Symbols.range ELSE s.kind := Symbols.period END
  ELSE s.kind := Symbols.fault
  END
END Mark;

(* Goes on to the next symbol. Behind the last one is end, again and again. *)
PROCEDURE (VAR s: Scanner) Next*;
BEGIN
  WHILE (s.r.ch = " ") OR (s.r.ch = Texts.lineEnd) DO s.r.Next END;
  s.line := s.r.line; s.col := s.r.col; s.length := 0;
  IF s.r.ch = 0X THEN s.kind := Symbols.end
  ELSIF IsLetter(s.r.ch) THEN s.Word
  ELSIF IsDigit(s.r.ch) THEN s.Number
  ELSIF (s.r.ch = '"') OR (s.r.ch = "'") THEN s.String
  ELSE s.Mark
  END;
  s.text[s.length] := 0X
END Next;

PROCEDURE (VAR s: Scanner) Open*(t: Texts.Text);
BEGIN s.r.Open(t); s.Next
END Open;

END Scanner.
