MODULE Pretty;  (* Writes a text of Oberon-2 anew: a line for each declaration
  and statement, and two blanks for each level. The text has to be in order. *)

IMPORT Texts, Symbols, Scanner;

CONST
  width = 76;                           (* beyond it a line is continued *)

TYPE
  Printer = RECORD
    w: Texts.Writer;
    last: INTEGER;                      (* the symbol before, no comment *)
    lastLine: LONGINT;                  (* its line in the source *)
    level: INTEGER;                     (* of the present line *)
    top: INTEGER;                       (* the structures that are not closed: *)
    kinds: ARRAY 64 OF INTEGER;         (* what each begins with *)
    levels: ARRAY 64 OF INTEGER;        (* the level of its first line *)
    brackets: INTEGER;                  (* how many are open *)
    newLine, gap: BOOLEAN;              (* the next symbol begins a line; it *)
                                        (* has an empty one before it *)
    named: BOOLEAN;                     (* a name was declared in this line *)
    mark, sign: BOOLEAN;                (* the last symbol: of export, a sign *)
    base, ended: BOOLEAN                (* in RECORD's brackets; behind END P *)
  END;

PROCEDURE (VAR p: Printer) Push(kind: INTEGER);
BEGIN INC(p.top); p.kinds[p.top] := kind; p.levels[p.top] := p.level
END Push;

(* The symbol begins a line, n levels inside the present structure. *)
PROCEDURE (VAR p: Printer) Before(n: INTEGER);
BEGIN p.level := p.levels[p.top] + n; p.newLine := TRUE
END Before;

(* So does the symbol behind it, one level inside. *)
PROCEDURE (VAR p: Printer) Behind;
BEGIN p.Before(1)
END Behind;

PROCEDURE (VAR p: Printer) Indent(level: INTEGER);
  VAR i: INTEGER;
BEGIN
  FOR i := 1 TO level DO p.w.String("  ") END
END Indent;

PROCEDURE (VAR p: Printer) StartLine;
BEGIN
  IF p.w.col > 1 THEN p.w.EndLine END;
  IF p.gap THEN p.w.EndLine END;
  p.Indent(p.level);
  p.newLine := FALSE; p.gap := FALSE; p.named := FALSE; p.mark := FALSE
END StartLine;

PROCEDURE (VAR p: Printer) InDeclarations(): BOOLEAN;
  VAR kind: INTEGER;
BEGIN
  kind := p.kinds[p.top];
  RETURN (p.brackets = 0) & ((kind = Symbols.module)
    OR (kind = Symbols.procedure) OR (kind = Symbols.record))
END InDeclarations;

(* Declarations of a procedure stand one level inside it. *)
PROCEDURE (VAR p: Printer) Inner(): INTEGER;
BEGIN
  IF p.kinds[p.top] = Symbols.procedure THEN RETURN 1 ELSE RETURN 0 END
END Inner;

(* Whether the last symbol has a type behind it, so that PROCEDURE is one. *)
PROCEDURE (VAR p: Printer) AtType(): BOOLEAN;
BEGIN
  RETURN (p.last = Symbols.equal) OR (p.last = Symbols.colon)
    OR (p.last = Symbols.of) OR (p.last = Symbols.to)
END AtType;

(* Whether the last symbol ends an operand, so that + and - are no signs. *)
PROCEDURE (VAR p: Printer) AtOperator(): BOOLEAN;
BEGIN
  CASE p.last OF
    Symbols.name .. Symbols.string, Symbols.close, Symbols.closeIndex,
    Symbols.closeSet, Symbols.arrow, Symbols.nil: RETURN TRUE
  ELSE RETURN FALSE
  END
END AtOperator;

(* Whether a blank stands between the last symbol and the next. *)
PROCEDURE (VAR p: Printer) Apart(kind: INTEGER): BOOLEAN;
BEGIN
  IF p.sign THEN RETURN FALSE END;
  CASE p.last OF
    Symbols.open, Symbols.openIndex, Symbols.openSet, Symbols.period,
    Symbols.not: RETURN FALSE
  ELSE
  END;
  CASE kind OF
    Symbols.semicolon, Symbols.comma, Symbols.period, Symbols.colon,
    Symbols.close, Symbols.closeIndex, Symbols.closeSet, Symbols.arrow,
    Symbols.openIndex: RETURN FALSE
  | Symbols.open:
    RETURN ~p.mark & (p.last # Symbols.name) & (p.last # Symbols.arrow)
      & (p.last # Symbols.closeIndex)
  | Symbols.times, Symbols.minus: RETURN ~p.mark
  ELSE RETURN TRUE
  END
END Apart;

(* What comes before a symbol is written. *)
PROCEDURE (VAR p: Printer) Prepare(kind: INTEGER);
BEGIN
  CASE kind OF
    Symbols.const, Symbols.type, Symbols.var:
    IF p.brackets = 0 THEN p.Before(p.Inner()) END
  | Symbols.procedure:
    IF ~p.AtType() & (p.brackets = 0) THEN
      p.Before(p.Inner()); p.gap := p.gap OR (p.w.col > 1)
    END
  | Symbols.begin, Symbols.endWord, Symbols.else, Symbols.elsif,
    Symbols.until, Symbols.bar: p.Before(0)
  | Symbols.open: IF p.last = Symbols.record THEN p.newLine := FALSE END
  | Symbols.times, Symbols.minus:
    p.mark := (p.last = Symbols.name) & p.InDeclarations() & ~p.named
  | Symbols.arrow:                      (* a forward declaration has no END *)
    IF p.last = Symbols.procedure THEN DEC(p.top) END
  ELSE
  END
END Prepare;

(* What comes of it for the symbols behind. *)
PROCEDURE (VAR p: Printer) Conclude(kind: INTEGER);
BEGIN
  p.sign := ((kind = Symbols.plus) OR (kind = Symbols.minus))
    & ~p.mark & ~p.AtOperator();
  IF (kind # Symbols.times) & (kind # Symbols.minus) THEN p.mark := FALSE END;
  CASE kind OF
    Symbols.module: p.Push(kind)
  | Symbols.const, Symbols.type, Symbols.var:
    IF p.brackets = 0 THEN INC(p.level); p.newLine := TRUE END
  | Symbols.procedure:
    IF ~p.AtType() & (p.brackets = 0) THEN p.Push(kind) END
  | Symbols.record: p.Push(kind); p.base := TRUE; p.Behind
  | Symbols.if, Symbols.while, Symbols.for, Symbols.case, Symbols.with:
    p.Push(kind)
  | Symbols.loop, Symbols.repeat: p.Push(kind); p.Behind
  | Symbols.begin: p.kinds[p.top] := kind; p.Behind
  | Symbols.then, Symbols.do, Symbols.else: p.Behind
  | Symbols.of: IF p.kinds[p.top] = Symbols.case THEN p.Behind END
  | Symbols.bar: INC(p.level)
  | Symbols.until: DEC(p.top)
  | Symbols.endWord:
    p.ended := (p.top > 1) & ((p.kinds[p.top] = Symbols.procedure)
      OR (p.kinds[p.top] = Symbols.begin));
    DEC(p.top)
  | Symbols.open, Symbols.openIndex, Symbols.openSet: INC(p.brackets)
  | Symbols.close, Symbols.closeIndex, Symbols.closeSet:
    DEC(p.brackets);
    IF p.base & (p.brackets = 0) THEN p.Behind END
  | Symbols.equal, Symbols.colon: IF p.brackets = 0 THEN p.named := TRUE END
  | Symbols.semicolon:
    IF p.brackets = 0 THEN
      p.newLine := TRUE; p.gap := p.ended; p.ended := FALSE
    END
  ELSE
  END;
  IF (kind # Symbols.record) & (p.brackets = 0) THEN p.base := FALSE END
END Conclude;

(* A comment stays behind the symbol in whose line it stood, or has its own. *)
PROCEDURE (VAR p: Printer) Comment(VAR s: Scanner.Scanner);
BEGIN
  IF s.line = p.lastLine THEN p.w.Char(" ")
  ELSE p.StartLine
  END;
  p.w.String(s.text); p.newLine := TRUE;
  IF s.line # p.lastLine THEN p.w.EndLine END
END Comment;

PROCEDURE Of*(t: Texts.Text): Texts.Text;
  VAR p: Printer; s: Scanner.Scanner; result: Texts.Text;
BEGIN
  result := Texts.New(); p.w.Open(result); s.Open(t);
  p.top := 0; p.level := 0; p.brackets := 0; p.last := Symbols.semicolon;
  p.lastLine := 0; p.kinds[0] := Symbols.end; p.levels[0] := 0;
  p.newLine := TRUE; p.gap := FALSE; p.named := FALSE; p.mark := FALSE;
  p.sign := FALSE; p.base := FALSE; p.ended := FALSE;
  WHILE s.kind # Symbols.end DO
    IF s.kind = Symbols.comment THEN p.Comment(s)
    ELSE
      p.Prepare(s.kind);
      IF p.newLine THEN p.StartLine
      ELSIF p.Apart(s.kind) THEN
        IF p.w.col + s.length > width THEN p.w.EndLine; p.Indent(p.level + 2)
        ELSE p.w.Char(" ")
        END
      END;
      p.w.String(s.text); p.Conclude(s.kind);
      p.last := s.kind; p.lastLine := s.line
    END;
    s.Next
  END;
  IF p.w.col > 1 THEN p.w.EndLine END;
  RETURN result
END Of;

END Pretty.
