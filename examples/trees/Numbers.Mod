MODULE Numbers;  (* A client of the first version: trees of numbers. *)

IMPORT Trees, Out;

TYPE
  Number* = POINTER TO NumberDesc;
  NumberDesc* = RECORD (Trees.ElementDesc)
    value-: LONGINT
  END;

VAR
  tree*: Trees.Tree;

PROCEDURE (n: Number) Before*(y: Trees.Element): BOOLEAN;
BEGIN RETURN n.value < y(Number).value
END Before;

PROCEDURE (n: Number) Print*;
BEGIN Out.Int(n.value, 0)
END Print;

PROCEDURE New*(value: LONGINT): Number;
  VAR n: Number;
BEGIN NEW(n); n.value := value; RETURN n
END New;

(* Puts the numbers from a to b into a tree, in their order. *)
PROCEDURE Fill*(t: Trees.Tree; a, b: LONGINT);
  VAR i: LONGINT;
BEGIN
  FOR i := a TO b DO t.Insert(New(i)) END
END Fill;

PROCEDURE Describe*(t: Trees.Tree);
BEGIN
  Out.Int(t.size, 0); Out.String(" numbers, height ");
  Out.Int(Trees.Height(t), 0); Out.Ln
END Describe;

(* The worst order for a plain tree. *)
PROCEDURE Rising*;
  VAR t: Trees.Tree;
BEGIN
  t := Trees.New(); Fill(t, 1, 500); Describe(t)
END Rising;

(* Numbers in no order, some of them twice. *)
PROCEDURE Mixed*;
  VAR i: INTEGER; x: LONGINT;
BEGIN
  tree := Trees.New(); x := 1;
  FOR i := 1 TO 40 DO
    x := x * 57 MOD 101; tree.Insert(New(x MOD 60))
  END;
  tree.Print; Describe(tree)
END Mixed;

PROCEDURE Has*(t: Trees.Tree; value: LONGINT): BOOLEAN;
BEGIN RETURN t.Find(New(value)) # NIL
END Has;

END Numbers.
