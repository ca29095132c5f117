MODULE Sums; IMPORT Stack, Out;

PROCEDURE Go*;
BEGIN Stack.Push(30); Stack.Push(12); Out.Int(Stack.Pop() + Stack.Pop(), 0); Out.Ln
END Go;

PROCEDURE Empty*;
BEGIN Out.Int(Stack.Pop(), 0)
END Empty;

END Sums.
