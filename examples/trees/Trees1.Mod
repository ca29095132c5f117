MODULE Trees;  (* Ordered sets of elements, first version: a plain tree, which
  is as high as the order of the insertions makes it. *)

IMPORT Out;

TYPE
  Element* = POINTER TO ElementDesc;
  ElementDesc* = RECORD END;    (* to be extended by clients *)

  Node = POINTER TO NodeDesc;
  NodeDesc = RECORD
    element: Element;
    left, right: Node
  END;

  Tree* = POINTER TO TreeDesc;
  TreeDesc* = RECORD
    size-: LONGINT;
    root: Node
  END;

(* What clients redefine for their own elements. Of two elements of which
  neither is before the other, a tree has one. *)

PROCEDURE (x: Element) Before*(y: Element): BOOLEAN;
BEGIN HALT(1); RETURN FALSE
END Before;

PROCEDURE (x: Element) Print*;
BEGIN HALT(2)
END Print;

(* Trees. *)

PROCEDURE New*(): Tree;
  VAR t: Tree;
BEGIN NEW(t); RETURN t
END New;

PROCEDURE Put(VAR n: Node; x: Element; VAR added: BOOLEAN);
BEGIN
  IF n = NIL THEN NEW(n); n.element := x; added := TRUE
  ELSIF x.Before(n.element) THEN Put(n.left, x, added)
  ELSIF n.element.Before(x) THEN Put(n.right, x, added)
  END
END Put;

PROCEDURE (t: Tree) Insert*(x: Element);
  VAR added: BOOLEAN;
BEGIN
  added := FALSE; Put(t.root, x, added);
  IF added THEN INC(t.size) END
END Insert;

(* The element that is neither before x nor behind it, or NIL. *)
PROCEDURE (t: Tree) Find*(x: Element): Element;
  VAR n: Node;
BEGIN
  n := t.root;
  LOOP
    IF n = NIL THEN RETURN NIL
    ELSIF x.Before(n.element) THEN n := n.left
    ELSIF n.element.Before(x) THEN n := n.right
    ELSE RETURN n.element
    END
  END
END Find;

PROCEDURE PrintNodes(n: Node);
BEGIN
  IF n # NIL THEN
    PrintNodes(n.left); Out.Char(" "); n.element.Print; PrintNodes(n.right)
  END
END PrintNodes;

PROCEDURE (t: Tree) Print*;
BEGIN Out.Int(t.size, 0); Out.Char(":"); PrintNodes(t.root); Out.Ln
END Print;

PROCEDURE HeightOf(n: Node): LONGINT;
  VAR left, right: LONGINT;
BEGIN
  IF n = NIL THEN RETURN 0 END;
  left := HeightOf(n.left); right := HeightOf(n.right);
  IF left > right THEN RETURN left + 1 ELSE RETURN right + 1 END
END HeightOf;

PROCEDURE Height*(t: Tree): LONGINT;
BEGIN RETURN HeightOf(t.root)
END Height;

END Trees.
