MODULE More;  (* Functions that take functions. Nothing of the interpreter
  knows this module: it makes itself known when it is loaded. *)

IMPORT Values, Eval, Lisp;

TYPE
  Value = Values.Value;

PROCEDURE Second(v: Value): Value;
BEGIN RETURN Values.First(Values.Rest(v))
END Second;

PROCEDURE CallOne(fun, x: Value): Value;
BEGIN RETURN Eval.Apply(fun, Values.Cons(x, Values.nil))
END CallOne;

(* (apply f list) *)
PROCEDURE Apply(args: Value): Value;
BEGIN RETURN Eval.Apply(Values.First(args), Second(args))
END Apply;

(* (map f list) *)
PROCEDURE Map(args: Value): Value;
  VAR list, last, v: Value;
BEGIN
  v := Second(args);
  list := Values.Cons(Values.nil, Values.nil); last := list;   (* before the first *)
  WHILE v # Values.nil DO
    last(Values.Pair).rest :=
      Values.Cons(CallOne(Values.First(args), Values.First(v)), Values.nil);
    last := Values.Rest(last); v := Values.Rest(v)
  END;
  RETURN Values.Rest(list)
END Map;

(* (filter f list) *)
PROCEDURE Filter(args: Value): Value;
  VAR list, last, v: Value;
BEGIN
  v := Second(args);
  list := Values.Cons(Values.nil, Values.nil); last := list;
  WHILE v # Values.nil DO
    IF CallOne(Values.First(args), Values.First(v)) # Values.nil THEN
      last(Values.Pair).rest := Values.Cons(Values.First(v), Values.nil);
      last := Values.Rest(last)
    END;
    v := Values.Rest(v)
  END;
  RETURN Values.Rest(list)
END Filter;

(* (fold f first list): (f .. (f (f first a) b) .. z) *)
PROCEDURE Fold(args: Value): Value;
  VAR result, v: Value;
BEGIN
  result := Second(args); v := Second(Values.Rest(args));
  WHILE v # Values.nil DO
    result := Eval.Apply(Values.First(args),
      Values.Cons(result, Values.Cons(Values.First(v), Values.nil)));
    v := Values.Rest(v)
  END;
  RETURN result
END Fold;

(* (upto a b): the numbers from a to b *)
PROCEDURE UpTo(args: Value): Value;
  VAR list, a, b: Value; n: LONGINT;
BEGIN
  list := Values.nil; a := Values.First(args); b := Second(args);
  IF (a IS Values.Number) & (b IS Values.Number) THEN
    FOR n := b(Values.Number).value TO a(Values.Number).value BY -1 DO
      list := Values.Cons(Values.NewNumber(n), list)
    END
  ELSE Values.Fail("two numbers wanted", args)
  END;
  RETURN list
END UpTo;

PROCEDURE Go*;
BEGIN
  Lisp.RunLine("map (upto 1 5)");
  Lisp.RunLine("(map (lambda (x) (* x x)) (upto 1 10))");
  Lisp.RunLine("(filter (lambda (x) (= (mod x 3) 0)) (upto 1 20))");
  Lisp.RunLine("(fold + 0 (upto 1 100)) (fold - 100 '(1 2 3)) (apply + '(1 2 3))");
  Lisp.RunLine("(fold (lambda (l x) (cons x l)) () '(a b c))");
  Lisp.RunLine("(map car '((1 2) (3 4) 5))")
END Go;

BEGIN
  Eval.Define("apply", Apply); Eval.Define("map", Map);
  Eval.Define("filter", Filter); Eval.Define("fold", Fold);
  Eval.Define("upto", UpTo)
END More.
