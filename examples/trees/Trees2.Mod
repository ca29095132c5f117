MODULE Trees;  (* Ordered sets of elements, second version.
  Trees are balanced now: each node has a level, as A. Andersson has it. New
  objects: Remove, and Iterator with its bound procedures. Hidden in a tree:
  a count of its changes, and the bound procedure Change. *)

IMPORT Out;

TYPE
  Element* = POINTER TO ElementDesc;
  ElementDesc* = RECORD END;    (* to be extended by clients *)

  (* A left child has a lower level than its parent, a right child a lower one
    or the same, and a right child of a right child a lower one. A node of a
    level above 1 has two children. *)
  Node = POINTER TO NodeDesc;
  NodeDesc = RECORD
    element: Element;
    level: INTEGER;
    left, right: Node
  END;

  Tree* = POINTER TO TreeDesc;
  TreeDesc* = RECORD
    size-: LONGINT;
    root: Node;
    changes: LONGINT
  END;

  Iterator* = RECORD            (* goes over a tree in order *)
    element-: Element;          (* the present one, NIL behind the last *)
    tree: Tree;
    changes: LONGINT;           (* of the tree, at the start *)
    waiting: ARRAY 64 OF Node;  (* nodes that are still to come with what is *)
    count: INTEGER              (* on their right, the next one last *)
  END;

(* What clients redefine for their own elements. Of two elements of which
  neither is before the other, a tree has one. *)

PROCEDURE (x: Element) Before*(y: Element): BOOLEAN;
BEGIN HALT(1); RETURN FALSE
END Before;

PROCEDURE (x: Element) Print*;
BEGIN HALT(2)
END Print;

(* Trees. *)

PROCEDURE New*(): Tree;
  VAR t: Tree;
BEGIN NEW(t); RETURN t
END New;

PROCEDURE LevelOf(n: Node): INTEGER;
BEGIN IF n = NIL THEN RETURN 0 ELSE RETURN n.level END
END LevelOf;

(* A left child of the same level becomes the parent. *)
PROCEDURE Skew(VAR n: Node);
  VAR left: Node;
BEGIN
  IF (n # NIL) & (LevelOf(n.left) = n.level) THEN
    left := n.left; n.left := left.right; left.right := n; n := left
  END
END Skew;

(* Of three nodes in a row on one level, the middle one goes up. *)
PROCEDURE Split(VAR n: Node);
  VAR right: Node;
BEGIN
  IF (n # NIL) & (n.right # NIL) & (LevelOf(n.right.right) = n.level) THEN
    right := n.right; n.right := right.left; right.left := n;
    INC(right.level); n := right
  END
END Split;

PROCEDURE Put(VAR n: Node; x: Element; VAR added: BOOLEAN);
BEGIN
  IF n = NIL THEN NEW(n); n.element := x; n.level := 1; added := TRUE
  ELSIF x.Before(n.element) THEN Put(n.left, x, added)
  ELSIF n.element.Before(x) THEN Put(n.right, x, added)
  END;
  Skew(n); Split(n)
END Put;

PROCEDURE (t: Tree) Insert*(x: Element);
  VAR added: BOOLEAN;
BEGIN
  added := FALSE; Put(t.root, x, added);
  IF added THEN t.Change(1) END
END Insert;

(* The element that is neither before x nor behind it, or NIL. *)
PROCEDURE (t: Tree) Find*(x: Element): Element;
  VAR n: Node;
BEGIN
  n := t.root;
  LOOP
    IF n = NIL THEN RETURN NIL
    ELSIF x.Before(n.element) THEN n := n.left
    ELSIF n.element.Before(x) THEN n := n.right
    ELSE RETURN n.element
    END
  END
END Find;

PROCEDURE PrintNodes(n: Node);
BEGIN
  IF n # NIL THEN
    PrintNodes(n.left); Out.Char(" "); n.element.Print; PrintNodes(n.right)
  END
END PrintNodes;

PROCEDURE (t: Tree) Print*;
BEGIN Out.Int(t.size, 0); Out.Char(":"); PrintNodes(t.root); Out.Ln
END Print;

(* The last bound procedure of a tree, so that the others keep their numbers. *)
PROCEDURE (t: Tree) Change(n: LONGINT);
BEGIN t.size := t.size + n; INC(t.changes)
END Change;

PROCEDURE HeightOf(n: Node): LONGINT;
  VAR left, right: LONGINT;
BEGIN
  IF n = NIL THEN RETURN 0 END;
  left := HeightOf(n.left); right := HeightOf(n.right);
  IF left > right THEN RETURN left + 1 ELSE RETURN right + 1 END
END HeightOf;

PROCEDURE Height*(t: Tree): LONGINT;
BEGIN RETURN HeightOf(t.root)
END Height;

(* After a removal below n, which may be two levels above a child. *)
PROCEDURE Lower(VAR n: Node);
  VAR level: INTEGER;
BEGIN
  level := LevelOf(n.left) + 1;
  IF LevelOf(n.right) < LevelOf(n.left) THEN level := LevelOf(n.right) + 1 END;
  IF level < n.level THEN
    n.level := level;
    IF LevelOf(n.right) > level THEN n.right.level := level END;
    Skew(n); Skew(n.right);
    IF n.right # NIL THEN Skew(n.right.right) END;
    Split(n); Split(n.right)
  END
END Lower;

(* Takes the first node below n out, and gives its element. *)
PROCEDURE TakeFirst(VAR n: Node; VAR x: Element);
BEGIN
  IF n.left = NIL THEN x := n.element; n := n.right
  ELSE TakeFirst(n.left, x); Lower(n)
  END
END TakeFirst;

PROCEDURE Take(VAR n: Node; x: Element; VAR taken: Element);
BEGIN
  IF n = NIL THEN RETURN
  ELSIF x.Before(n.element) THEN Take(n.left, x, taken); Lower(n)
  ELSIF n.element.Before(x) THEN Take(n.right, x, taken); Lower(n)
  ELSE
    taken := n.element;
    IF n.right = NIL THEN n := n.left
    ELSE TakeFirst(n.right, n.element); Lower(n)
    END
  END
END Take;

(* Takes the element out that Find would give, and gives it, or NIL. *)
PROCEDURE Remove*(t: Tree; x: Element): Element;
  VAR taken: Element;
BEGIN
  taken := NIL; Take(t.root, x, taken);
  IF taken # NIL THEN t.Change(-1) END;
  RETURN taken
END Remove;

(* Iterators. *)

PROCEDURE (VAR i: Iterator) Wait(n: Node);
BEGIN
  WHILE n # NIL DO i.waiting[i.count] := n; INC(i.count); n := n.left END
END Wait;

(* Goes on to the next element. Changing the tree ends its iterators. *)
PROCEDURE (VAR i: Iterator) Next*;
  VAR n: Node;
BEGIN
  ASSERT(i.changes = i.tree.changes, 21);
  i.element := NIL;
  IF i.count > 0 THEN
    DEC(i.count); n := i.waiting[i.count];
    i.element := n.element; i.Wait(n.right)
  END
END Next;

PROCEDURE (VAR i: Iterator) Start*(t: Tree);
BEGIN
  i.tree := t; i.changes := t.changes; i.count := 0;
  i.Wait(t.root); i.Next
END Start;

END Trees.
