MODULE Values;  (* What a Lisp program computes with: numbers, symbols, pairs,
  and the empty list. Clients extend Value by kinds of their own. *)

IMPORT Out;

TYPE
  Name* = ARRAY 24 OF CHAR;

  Value* = POINTER TO ValueDesc;
  ValueDesc* = RECORD END;            (* nil is the only plain one *)

  Number* = POINTER TO NumberDesc;
  NumberDesc* = RECORD (ValueDesc)
    value-: LONGINT
  END;

  (* There is one symbol of each name, so symbols are compared as pointers. *)
  Symbol* = POINTER TO SymbolDesc;
  SymbolDesc* = RECORD (ValueDesc)
    name-: Name;
    global*: Value;                   (* NIL where it is not defined *)
    next: Symbol
  END;

  Pair* = POINTER TO PairDesc;
  PairDesc* = RECORD (ValueDesc)
    first*, rest*: Value
  END;

VAR
  nil-: Value;                        (* the empty list, and what is false *)
  true-: Symbol;                      (* the symbol t *)
  failed-: BOOLEAN;                   (* a fault was reported *)
  symbols: ARRAY 64 OF Symbol;        (* lists, by a number of the name *)

(* Printing. *)

PROCEDURE (v: Value) Print*;
BEGIN Out.String("()")
END Print;

PROCEDURE (n: Number) Print*;
BEGIN Out.Int(n.value, 0)
END Print;

PROCEDURE (s: Symbol) Print*;
BEGIN Out.String(s.name)
END Print;

PROCEDURE (p: Pair) Print*;
  VAR v: Value;
BEGIN
  Out.Char("("); p.first.Print; v := p.rest;
  WHILE v IS Pair DO
    Out.Char(" "); v(Pair).first.Print; v := v(Pair).rest
  END;
  IF v # nil THEN Out.String(" . "); v.Print END;
  Out.Char(")")
END Print;

(* Equality: numbers by their values, pairs by their parts, all others by
  being the same. *)

PROCEDURE (v: Value) Equal*(w: Value): BOOLEAN;
BEGIN RETURN v = w
END Equal;

PROCEDURE (n: Number) Equal*(w: Value): BOOLEAN;
BEGIN RETURN (w IS Number) & (w(Number).value = n.value)
END Equal;

PROCEDURE (p: Pair) Equal*(w: Value): BOOLEAN;
  VAR v: Value;
BEGIN
  v := p;
  WHILE (v IS Pair) & (w IS Pair) & v(Pair).first.Equal(w(Pair).first) DO
    v := v(Pair).rest; w := w(Pair).rest
  END;
  IF v IS Pair THEN RETURN FALSE ELSE RETURN v.Equal(w) END
END Equal;

(* Makers. *)

PROCEDURE NewNumber*(value: LONGINT): Value;
  VAR n: Number;
BEGIN NEW(n); n.value := value; RETURN n
END NewNumber;

PROCEDURE Cons*(first, rest: Value): Value;
  VAR p: Pair;
BEGIN NEW(p); p.first := first; p.rest := rest; RETURN p
END Cons;

PROCEDURE Truth*(b: BOOLEAN): Value;
BEGIN IF b THEN RETURN true ELSE RETURN nil END
END Truth;

(* The symbol of a name. What goes beyond 23 characters is left out. *)
PROCEDURE ToSymbol*(text: ARRAY OF CHAR): Symbol;
  VAR name: Name; s: Symbol; i, hash: LONGINT;
BEGIN
  COPY(text, name); hash := 0; i := 0;
  WHILE name[i] # 0X DO hash := (hash * 8 + ORD(name[i])) MOD 64; INC(i) END;
  s := symbols[hash];
  WHILE (s # NIL) & (s.name # name) DO s := s.next END;
  IF s = NIL THEN
    NEW(s); s.name := name; s.next := symbols[hash]; symbols[hash] := s
  END;
  RETURN s
END ToSymbol;

(* Faults. All that works on values is made so that it goes on with nil after
  a fault; the evaluator stops at its next step. So only the first is told. *)

PROCEDURE Reset*;
BEGIN failed := FALSE
END Reset;

PROCEDURE Fail*(message: ARRAY OF CHAR; v: Value);
BEGIN
  IF ~failed THEN
    failed := TRUE;
    Out.String("  fault: "); Out.String(message);
    IF v # NIL THEN Out.String(": "); v.Print END;
    Out.Ln
  END
END Fail;

(* Parts of lists; of what is no list they are nil. *)

PROCEDURE First*(v: Value): Value;
BEGIN IF v IS Pair THEN RETURN v(Pair).first ELSE RETURN nil END
END First;

PROCEDURE Rest*(v: Value): Value;
BEGIN IF v IS Pair THEN RETURN v(Pair).rest ELSE RETURN nil END
END Rest;

BEGIN
  NEW(nil); true := ToSymbol("t"); true.global := true
END Values.
