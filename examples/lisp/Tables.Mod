MODULE Tables;  (* A new kind of value: a table, which keeps a value for each
  of its keys. Values and Eval were compiled before it was thought of. *)

IMPORT Values, Eval, Lisp, Out;

TYPE
  Value = Values.Value;

  Row = POINTER TO RowDesc;
  RowDesc = RECORD
    key, value: Value;
    next: Row                         (* in the order in which they came *)
  END;

  Table = POINTER TO TableDesc;
  TableDesc = RECORD (Values.ValueDesc)
    first, last: Row
  END;

PROCEDURE (t: Table) Print*;
  VAR r: Row;
BEGIN
  Out.Char("{"); r := t.first;
  WHILE r # NIL DO
    r.key.Print; Out.String(": "); r.value.Print; r := r.next;
    IF r # NIL THEN Out.String(", ") END
  END;
  Out.Char("}")
END Print;

PROCEDURE (t: Table) Find(key: Value): Row;
  VAR r: Row;
BEGIN
  r := t.first;
  WHILE (r # NIL) & ~r.key.Equal(key) DO r := r.next END;
  RETURN r
END Find;

PROCEDURE (t: Table) Put(key, value: Value);
  VAR r: Row;
BEGIN
  r := t.Find(key);
  IF r = NIL THEN
    NEW(r); r.key := key;
    IF t.first = NIL THEN t.first := r ELSE t.last.next := r END;
    t.last := r
  END;
  r.value := value
END Put;

(* The functions of Lisp. *)

PROCEDURE New(args: Value): Value;
  VAR t: Table;
BEGIN NEW(t); RETURN t
END New;

(* (put! table key value) *)
PROCEDURE PutIn(args: Value): Value;
  VAR t, rest: Value;
BEGIN
  t := Values.First(args); rest := Values.Rest(args);
  IF t IS Table THEN
    t(Table).Put(Values.First(rest), Values.First(Values.Rest(rest)))
  ELSE Values.Fail("no table", t)
  END;
  RETURN t
END PutIn;

(* (get table key other): other where the table has no such key *)
PROCEDURE Get(args: Value): Value;
  VAR t, rest: Value; r: Row;
BEGIN
  t := Values.First(args); rest := Values.Rest(args);
  IF t IS Table THEN
    r := t(Table).Find(Values.First(rest));
    IF r # NIL THEN RETURN r.value END
  ELSE Values.Fail("no table", t)
  END;
  RETURN Values.First(Values.Rest(rest))
END Get;

PROCEDURE Go*;
BEGIN
  Lisp.Line("(define (count-all l)");
  Lisp.Line("  (fold (lambda (t x) (put! t x (+ 1 (get t x 0)))) (table) l))");
  Lisp.Run;
  Lisp.RunLine("(count-all '(to be or not to be)) (count-all '((1) 2 (1)))");
  Lisp.Line("(define seen (table))");
  Lisp.Line("(define (fib n)");
  Lisp.Line("  (or (get seen n ())");
  Lisp.Line("      (let ((f (if (< n 2) n (+ (fib (- n 1)) (fib (- n 2))))))");
  Lisp.Line("        (put! seen n f)");
  Lisp.Line("        f)))");
  Lisp.Line("(fib 10) seen (fib 46)");
  Lisp.Run;
  Lisp.RunLine("(= (table) (table)) (= seen seen)");
  Lisp.RunLine("(get '(1 2) 1 2)")
END Go;

BEGIN
  Eval.Define("table", New); Eval.Define("put!", PutIn); Eval.Define("get", Get)
END Tables.
