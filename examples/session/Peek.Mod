MODULE Peek; IMPORT Stack, Out;

PROCEDURE Go*;
BEGIN Stack.Push(7); Out.Int(Stack.top.value, 0); Out.Ln
END Go;

END Peek.
