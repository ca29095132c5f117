MODULE Eval;  (* The evaluator: frames, functions, and the special forms. *)

IMPORT Values, Out;

TYPE
  Value = Values.Value;

  (* The names that are known at a place: those of one call or let, and then
    those around it. Globals stand in the symbols themselves. *)
  Binding = POINTER TO BindingDesc;
  BindingDesc = RECORD
    symbol: Values.Symbol;
    value: Value;
    next: Binding
  END;

  Frame* = POINTER TO FrameDesc;
  FrameDesc = RECORD
    bindings: Binding;
    outer: Frame                      (* NIL where the globals are around it *)
  END;

  (* A function that Lisp defines. It keeps the frame it was made in. *)
  Closure = POINTER TO ClosureDesc;
  ClosureDesc = RECORD (Values.ValueDesc)
    pars, body: Value;
    frame: Frame
  END;

  (* A function that Oberon defines, of a list of arguments. *)
  Function* = PROCEDURE (args: Values.Value): Values.Value;

  Primitive = POINTER TO PrimitiveDesc;
  PrimitiveDesc = RECORD (Values.ValueDesc)
    name: Values.Symbol;
    fun: Function
  END;

VAR
  quote, if, cond, else, begin, let, define, set, lambda, and, or:
    Values.Symbol;

PROCEDURE (c: Closure) Print*;
BEGIN Out.String("<function>")
END Print;

PROCEDURE (p: Primitive) Print*;
BEGIN Out.Char("<"); p.name.Print; Out.Char(">")
END Print;

(* Makes a function of Oberon known to Lisp. *)
PROCEDURE Define*(name: ARRAY OF CHAR; fun: Function);
  VAR p: Primitive;
BEGIN
  NEW(p); p.name := Values.ToSymbol(name); p.fun := fun; p.name.global := p
END Define;

(* Names. *)

PROCEDURE (f: Frame) Add(s: Values.Symbol; v: Value);
  VAR b: Binding;
BEGIN
  NEW(b); b.symbol := s; b.value := v; b.next := f.bindings; f.bindings := b
END Add;

(* The binding that counts in the frame f, NIL for a global. *)
PROCEDURE Found(s: Values.Symbol; f: Frame): Binding;
  VAR b: Binding;
BEGIN
  WHILE f # NIL DO
    b := f.bindings;
    WHILE b # NIL DO
      IF b.symbol = s THEN RETURN b END;
      b := b.next
    END;
    f := f.outer
  END;
  RETURN NIL
END Found;

PROCEDURE Lookup(s: Values.Symbol; f: Frame): Value;
  VAR b: Binding;
BEGIN
  b := Found(s, f);
  IF b # NIL THEN RETURN b.value
  ELSIF s.global # NIL THEN RETURN s.global
  ELSE Values.Fail("not defined", s); RETURN Values.nil
  END
END Lookup;

PROCEDURE Change(s: Value; v: Value; f: Frame);
  VAR b: Binding;
BEGIN
  IF Values.failed THEN RETURN END;
  IF ~(s IS Values.Symbol) THEN Values.Fail("no symbol", s); RETURN END;
  b := Found(s(Values.Symbol), f);
  IF b # NIL THEN b.value := v
  ELSIF s(Values.Symbol).global # NIL THEN s(Values.Symbol).global := v
  ELSE Values.Fail("not defined", s)
  END
END Change;

(* A name in the frame f, or a global one where there is no frame. *)
PROCEDURE Bind(s: Value; v: Value; f: Frame);
BEGIN
  IF Values.failed THEN RETURN END;
  IF ~(s IS Values.Symbol) THEN Values.Fail("no symbol", s)
  ELSIF f # NIL THEN f.Add(s(Values.Symbol), v)
  ELSE s(Values.Symbol).global := v
  END
END Bind;

(* The frame of a call: parameters with arguments. Where the parameters end
  in a symbol, as in (x . more), it takes the list of what is left. *)
PROCEDURE FrameOf(c: Closure; args: Value): Frame;
  VAR f: Frame; pars: Value;
BEGIN
  NEW(f); f.outer := c.frame; pars := c.pars;
  WHILE (pars IS Values.Pair) & (args IS Values.Pair) DO
    Bind(Values.First(pars), Values.First(args), f);
    pars := Values.Rest(pars); args := Values.Rest(args)
  END;
  IF pars IS Values.Symbol THEN Bind(pars, args, f)
  ELSIF pars # Values.nil THEN Values.Fail("no argument for", Values.First(pars))
  ELSIF args # Values.nil THEN Values.Fail("one argument too many", Values.First(args))
  END;
  RETURN f
END FrameOf;

PROCEDURE NewClosure(pars, body: Value; f: Frame): Value;
  VAR c: Closure;
BEGIN NEW(c); c.pars := pars; c.body := body; c.frame := f; RETURN c
END NewClosure;

(* Evaluation. What is the last thing that a function does is not called but
  gone on with, so a loop that is written as a recursion takes no stack. *)

PROCEDURE^ Eval*(v: Value; f: Frame): Value;

PROCEDURE EvalList(v: Value; f: Frame): Value;
  VAR first: Value;
BEGIN
  IF v IS Values.Pair THEN
    first := Eval(Values.First(v), f);
    RETURN Values.Cons(first, EvalList(Values.Rest(v), f))
  END;
  RETURN Values.nil
END EvalList;

(* Evaluates all of a list but its last value, which is the result. *)
PROCEDURE LastOf(list: Value; f: Frame): Value;
  VAR v: Value;
BEGIN
  WHILE Values.Rest(list) # Values.nil DO
    v := Eval(Values.First(list), f); list := Values.Rest(list)
  END;
  RETURN Values.First(list)
END LastOf;

(* The body of the first clause whose condition holds. *)
PROCEDURE Chosen(clauses: Value; f: Frame): Value;
  VAR test: Value;
BEGIN
  WHILE clauses # Values.nil DO
    test := Values.First(Values.First(clauses));
    IF (test = else) OR (Eval(test, f) # Values.nil) THEN
      RETURN Values.Rest(Values.First(clauses))
    END;
    clauses := Values.Rest(clauses)
  END;
  RETURN Values.nil
END Chosen;

(* (let ((name value) ..) ..): the values are evaluated outside. *)
PROCEDURE LetFrame(list: Value; f: Frame): Frame;
  VAR inner: Frame; item: Value;
BEGIN
  NEW(inner); inner.outer := f;
  WHILE list # Values.nil DO
    item := Values.First(list);
    Bind(Values.First(item), Eval(Values.First(Values.Rest(item)), f), inner);
    list := Values.Rest(list)
  END;
  RETURN inner
END LetFrame;

(* (define name value) or (define (name par ..) ..). The value is the name. *)
PROCEDURE Defined(list: Value; f: Frame): Value;
  VAR name: Value;
BEGIN
  name := Values.First(list);
  IF name IS Values.Pair THEN
    Bind(Values.First(name),
      NewClosure(Values.Rest(name), Values.Rest(list), f), f);
    RETURN Values.First(name)
  END;
  Bind(name, Eval(Values.First(Values.Rest(list)), f), f);
  RETURN name
END Defined;

(* And and or: the last value is gone on with, the others decide. *)
PROCEDURE Decided(list: Value; f: Frame; all: BOOLEAN; VAR v: Value): BOOLEAN;
BEGIN
  WHILE Values.Rest(list) # Values.nil DO
    v := Eval(Values.First(list), f);
    IF (v = Values.nil) = all THEN RETURN TRUE END;
    list := Values.Rest(list)
  END;
  v := Values.First(list);
  RETURN FALSE
END Decided;

PROCEDURE Eval*(v: Value; f: Frame): Value;
  VAR head, tail, fun, args: Value;
BEGIN
  LOOP
    IF Values.failed THEN RETURN Values.nil END;
    IF v IS Values.Symbol THEN RETURN Lookup(v(Values.Symbol), f) END;
    IF ~(v IS Values.Pair) THEN RETURN v END;
    head := Values.First(v); tail := Values.Rest(v);
    IF head = quote THEN RETURN Values.First(tail)
    ELSIF head = lambda THEN
      RETURN NewClosure(Values.First(tail), Values.Rest(tail), f)
    ELSIF head = define THEN RETURN Defined(tail, f)
    ELSIF head = set THEN
      v := Eval(Values.First(Values.Rest(tail)), f);
      Change(Values.First(tail), v, f);
      RETURN v
    ELSIF head = if THEN
      IF Eval(Values.First(tail), f) # Values.nil THEN
        v := Values.First(Values.Rest(tail))
      ELSE
        v := Values.First(Values.Rest(Values.Rest(tail)))
      END
    ELSIF head = cond THEN v := LastOf(Chosen(tail, f), f)
    ELSIF head = begin THEN v := LastOf(tail, f)
    ELSIF head = let THEN
      f := LetFrame(Values.First(tail), f); v := LastOf(Values.Rest(tail), f)
    ELSIF (head = and) OR (head = or) THEN
      IF Decided(tail, f, head = and, v) THEN RETURN v END
    ELSE
      fun := Eval(head, f); args := EvalList(tail, f);
      IF Values.failed THEN RETURN Values.nil
      ELSIF fun IS Primitive THEN RETURN fun(Primitive).fun(args)
      ELSIF fun IS Closure THEN
        f := FrameOf(fun(Closure), args); v := LastOf(fun(Closure).body, f)
      ELSE Values.Fail("no function", fun)
      END
    END
  END
END Eval;

(* Calls a function of any kind, for functions of Oberon that take functions. *)
PROCEDURE Apply*(fun, args: Value): Value;
  VAR f: Frame;
BEGIN
  IF Values.failed THEN RETURN Values.nil
  ELSIF fun IS Primitive THEN RETURN fun(Primitive).fun(args)
  ELSIF fun IS Closure THEN
    f := FrameOf(fun(Closure), args);
    RETURN Eval(LastOf(fun(Closure).body, f), f)
  ELSE
    Values.Fail("no function", fun); RETURN Values.nil
  END
END Apply;

BEGIN
  quote := Values.ToSymbol("quote"); if := Values.ToSymbol("if");
  cond := Values.ToSymbol("cond"); else := Values.ToSymbol("else");
  begin := Values.ToSymbol("begin"); let := Values.ToSymbol("let");
  define := Values.ToSymbol("define"); set := Values.ToSymbol("set!");
  lambda := Values.ToSymbol("lambda"); and := Values.ToSymbol("and");
  or := Values.ToSymbol("or")
END Eval.
