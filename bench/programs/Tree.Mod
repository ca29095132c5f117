MODULE Tree;  (* Numbers that look like chance go into a binary tree, which is then walked. *)
IMPORT Out;

CONST N = 100000;

TYPE Node = POINTER TO NodeDesc; NodeDesc = RECORD key, times: LONGINT; left, right: Node END;

VAR root: Node; seed, last, sum: LONGINT;

PROCEDURE Next(): LONGINT;
BEGIN seed := (seed * 8121 + 28411) MOD 134456; RETURN seed
END Next;

PROCEDURE Insert(VAR t: Node; key: LONGINT);
BEGIN
  IF t = NIL THEN NEW(t); t.key := key; t.times := 1
  ELSIF key < t.key THEN Insert(t.left, key)
  ELSIF key > t.key THEN Insert(t.right, key)
  ELSE INC(t.times)
  END
END Insert;

PROCEDURE Walk(t: Node);
BEGIN
  IF t # NIL THEN
    Walk(t.left);
    ASSERT(last < t.key); last := t.key;
    sum := (sum + t.key * t.times) MOD 1000003;
    Walk(t.right)
  END
END Walk;

PROCEDURE Go*;
  VAR i: LONGINT;
BEGIN
  seed := 74755; last := -1; sum := 0;
  FOR i := 1 TO N DO Insert(root, Next()) END;
  Walk(root);
  Out.Int(sum, 0); Out.Ln
END Go;

END Tree.
