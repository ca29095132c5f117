MODULE Stack;  (* Numbers, one on another. *)
TYPE List* = POINTER TO Cell; Cell* = RECORD next: List; value-: LONGINT END;
VAR top-: List;

PROCEDURE Push*(x: LONGINT);
  VAR c: List;
BEGIN NEW(c); c.value := x; c.next := top; top := c
END Push;

PROCEDURE Pop*(): LONGINT;
  VAR x: LONGINT;
BEGIN x := top.value; top := top.next; RETURN x
END Pop;

PROCEDURE Size*(): LONGINT;
  VAR c: List; n: LONGINT;
BEGIN c := top; WHILE c # NIL DO INC(n); c := c.next END; RETURN n
END Size;

END Stack.
