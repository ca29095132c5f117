MODULE Lisp;  (* The interpreter: takes the lines of a program and runs it.
  What a program defines stays for the programs behind it. *)

IMPORT Values, Reader, Eval, Basics, Out;

VAR
  program: Reader.Reader;

(* Writes a line of a program and keeps it for Run. *)
PROCEDURE Line*(text: ARRAY OF CHAR);
BEGIN
  Out.String("> "); Out.String(text); Out.Ln;
  program.Append(text)
END Line;

(* Evaluates the values of the lines one by one, up to the first fault, and
  writes what each comes to. *)
PROCEDURE Run*;
  VAR v: Values.Value;
BEGIN
  Values.Reset;
  WHILE program.More() & ~Values.failed DO
    v := program.Read(); v := Eval.Eval(v, NIL);
    IF ~Values.failed THEN Out.String("  "); v.Print; Out.Ln END
  END;
  program.Clear
END Run;

PROCEDURE RunLine*(text: ARRAY OF CHAR);
BEGIN Line(text); Run
END RunLine;

BEGIN
  program.Clear
END Lisp.
