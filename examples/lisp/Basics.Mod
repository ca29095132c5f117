MODULE Basics;  (* The functions that every Lisp program knows. *)

IMPORT Values, Eval;

TYPE
  Value = Values.Value;

(* The two arguments of a function; a fault where there are not two. *)
PROCEDURE Two(args: Value; VAR x, y: Value);
BEGIN
  x := Values.First(args); y := Values.First(Values.Rest(args));
  IF (Values.Rest(args) = Values.nil)
    OR (Values.Rest(Values.Rest(args)) # Values.nil) THEN
    Values.Fail("two arguments wanted", args)
  END
END Two;

PROCEDURE One(args: Value): Value;
BEGIN
  IF (args = Values.nil) OR (Values.Rest(args) # Values.nil) THEN
    Values.Fail("one argument wanted", args)
  END;
  RETURN Values.First(args)
END One;

PROCEDURE ToInt(v: Value): LONGINT;
BEGIN
  IF v IS Values.Number THEN RETURN v(Values.Number).value
  ELSE Values.Fail("no number", v); RETURN 0
  END
END ToInt;

(* Arithmetic. *)

PROCEDURE Plus(args: Value): Value;
  VAR sum: LONGINT;
BEGIN
  sum := 0;
  WHILE args # Values.nil DO
    sum := sum + ToInt(Values.First(args)); args := Values.Rest(args)
  END;
  RETURN Values.NewNumber(sum)
END Plus;

PROCEDURE Times(args: Value): Value;
  VAR product: LONGINT;
BEGIN
  product := 1;
  WHILE args # Values.nil DO
    product := product * ToInt(Values.First(args)); args := Values.Rest(args)
  END;
  RETURN Values.NewNumber(product)
END Times;

PROCEDURE Minus(args: Value): Value;
  VAR x, y: Value;
BEGIN Two(args, x, y); RETURN Values.NewNumber(ToInt(x) - ToInt(y))
END Minus;

PROCEDURE Divisor(v: Value): LONGINT;
  VAR y: LONGINT;
BEGIN
  y := ToInt(v);
  IF y <= 0 THEN Values.Fail("no divisor", v); y := 1 END;
  RETURN y
END Divisor;

PROCEDURE Div(args: Value): Value;
  VAR x, y: Value;
BEGIN Two(args, x, y); RETURN Values.NewNumber(ToInt(x) DIV Divisor(y))
END Div;

PROCEDURE Mod(args: Value): Value;
  VAR x, y: Value;
BEGIN Two(args, x, y); RETURN Values.NewNumber(ToInt(x) MOD Divisor(y))
END Mod;

PROCEDURE Less(args: Value): Value;
  VAR x, y: Value;
BEGIN Two(args, x, y); RETURN Values.Truth(ToInt(x) < ToInt(y))
END Less;

PROCEDURE Same(args: Value): Value;
  VAR x, y: Value;
BEGIN Two(args, x, y); RETURN Values.Truth(x.Equal(y))
END Same;

PROCEDURE Not(args: Value): Value;
BEGIN RETURN Values.Truth(One(args) = Values.nil)
END Not;

(* Lists. *)

PROCEDURE Cons(args: Value): Value;
  VAR x, y: Value;
BEGIN Two(args, x, y); RETURN Values.Cons(x, y)
END Cons;

PROCEDURE Car(args: Value): Value;
  VAR v: Value;
BEGIN
  v := One(args);
  IF ~(v IS Values.Pair) THEN Values.Fail("no pair", v) END;
  RETURN Values.First(v)
END Car;

PROCEDURE Cdr(args: Value): Value;
  VAR v: Value;
BEGIN
  v := One(args);
  IF ~(v IS Values.Pair) THEN Values.Fail("no pair", v) END;
  RETURN Values.Rest(v)
END Cdr;

PROCEDURE List(args: Value): Value;
BEGIN RETURN args
END List;

PROCEDURE IsPair(args: Value): Value;
BEGIN RETURN Values.Truth(One(args) IS Values.Pair)
END IsPair;

PROCEDURE IsSymbol(args: Value): Value;
BEGIN RETURN Values.Truth(One(args) IS Values.Symbol)
END IsSymbol;

PROCEDURE IsNumber(args: Value): Value;
BEGIN RETURN Values.Truth(One(args) IS Values.Number)
END IsNumber;

BEGIN
  Eval.Define("+", Plus); Eval.Define("-", Minus); Eval.Define("*", Times);
  Eval.Define("div", Div); Eval.Define("mod", Mod); Eval.Define("<", Less);
  Eval.Define("=", Same); Eval.Define("not", Not); Eval.Define("null?", Not);
  Eval.Define("cons", Cons); Eval.Define("car", Car); Eval.Define("cdr", Cdr);
  Eval.Define("list", List); Eval.Define("pair?", IsPair);
  Eval.Define("symbol?", IsSymbol); Eval.Define("number?", IsNumber)
END Basics.
