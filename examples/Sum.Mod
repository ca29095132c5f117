MODULE Sum; IMPORT Out; VAR i, s: LONGINT; PROCEDURE Go*; BEGIN i := 0; s := 0; WHILE i < 10 DO i := i + 1; s := s + i END; Out.Int(s, 0); Out.Ln END Go; END Sum.
