MODULE Reader;  (* Reads values out of a text.

  value = number | symbol | "'" value | "(" {value} [value "." value] ")".
  A comment goes from ";" to the end of its line. *)

IMPORT Values;

CONST
  lineEnd = 0AX;

TYPE
  Reader* = RECORD
    text: ARRAY 2048 OF CHAR;
    length, pos: LONGINT
  END;

VAR
  quote: Values.Symbol;

PROCEDURE (VAR r: Reader) Clear*;
BEGIN r.length := 0; r.pos := 0; r.text[0] := 0X
END Clear;

(* Puts one more line behind the text. *)
PROCEDURE (VAR r: Reader) Append*(line: ARRAY OF CHAR);
  VAR i: LONGINT;
BEGIN
  i := 0;
  WHILE line[i] # 0X DO r.text[r.length] := line[i]; INC(r.length); INC(i) END;
  r.text[r.length] := lineEnd; INC(r.length);
  r.text[r.length] := 0X
END Append;

PROCEDURE (VAR r: Reader) Skip;
BEGIN
  LOOP
    IF r.text[r.pos] = ";" THEN
      WHILE r.text[r.pos] # lineEnd DO INC(r.pos) END
    ELSIF (r.text[r.pos] = " ") OR (r.text[r.pos] = lineEnd) THEN INC(r.pos)
    ELSE EXIT
    END
  END
END Skip;

(* Whether the text goes on. *)
PROCEDURE (VAR r: Reader) More*(): BOOLEAN;
BEGIN r.Skip; RETURN r.text[r.pos] # 0X
END More;

PROCEDURE IsDigit(ch: CHAR): BOOLEAN;
BEGIN RETURN (ch >= "0") & (ch <= "9")
END IsDigit;

PROCEDURE IsPart(ch: CHAR): BOOLEAN;
BEGIN
  RETURN (ch > " ") & (ch # "(") & (ch # ")") & (ch # "'") & (ch # ";")
END IsPart;

(* The value of a name of digits, perhaps behind a minus, else a symbol. *)
PROCEDURE ToValue(VAR name: Values.Name): Values.Value;
  VAR i: INTEGER; n: LONGINT; negative: BOOLEAN;
BEGIN
  negative := (name[0] = "-") & (name[1] # 0X);
  IF negative THEN i := 1 ELSE i := 0 END;
  n := 0;
  WHILE IsDigit(name[i]) & (n < 100000000) DO
    n := n * 10 + ORD(name[i]) - ORD("0"); INC(i)
  END;
  IF name[i] # 0X THEN
    IF IsDigit(name[i]) THEN
      Values.Fail("number too long", NIL); RETURN Values.nil
    END;
    RETURN Values.ToSymbol(name)
  END;
  IF negative THEN n := -n END;
  RETURN Values.NewNumber(n)
END ToValue;

PROCEDURE (VAR r: Reader) ReadName(): Values.Value;
  VAR name: Values.Name; i: INTEGER;
BEGIN
  i := 0;
  WHILE IsPart(r.text[r.pos]) DO
    IF i < LEN(name) - 1 THEN name[i] := r.text[r.pos]; INC(i) END;
    INC(r.pos)
  END;
  name[i] := 0X;
  RETURN ToValue(name)
END ReadName;

(* A dot alone stands before the last value of a list. *)
PROCEDURE (VAR r: Reader) AtDot(): BOOLEAN;
BEGIN RETURN (r.text[r.pos] = ".") & ~IsPart(r.text[r.pos + 1])
END AtDot;

(* The list behind a bracket that was read, with its end. *)
PROCEDURE (VAR r: Reader) ReadList(): Values.Value;
  VAR v: Values.Value;
BEGIN
  IF ~r.More() THEN
    Values.Fail("a list has no end", NIL); RETURN Values.nil
  ELSIF r.text[r.pos] = ")" THEN
    INC(r.pos); RETURN Values.nil
  ELSIF r.AtDot() THEN
    INC(r.pos); v := r.Read();
    IF r.More() & (r.text[r.pos] = ")") THEN INC(r.pos)
    ELSE Values.Fail("one value stands behind a dot", NIL)
    END;
    RETURN v
  ELSE
    v := r.Read(); RETURN Values.Cons(v, r.ReadList())
  END
END ReadList;

(* The next value; there has to be more. After a fault the text is left. *)
PROCEDURE (VAR r: Reader) Read*(): Values.Value;
  VAR v: Values.Value;
BEGIN
  v := Values.nil;
  IF ~r.More() THEN Values.Fail("a value is missing", NIL)
  ELSIF r.text[r.pos] = "(" THEN INC(r.pos); v := r.ReadList()
  ELSIF r.text[r.pos] = ")" THEN Values.Fail("a list has no begin", NIL)
  ELSIF r.text[r.pos] = "'" THEN
    INC(r.pos); v := Values.Cons(quote, Values.Cons(r.Read(), Values.nil))
  ELSE v := r.ReadName()
  END;
  IF Values.failed THEN r.pos := r.length END;
  RETURN v
END Read;

BEGIN
  quote := Values.ToSymbol("quote")
END Reader.
