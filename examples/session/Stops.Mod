MODULE Stops; IMPORT Out;

PROCEDURE Check*;
BEGIN Out.String("checked"); ASSERT(1 > 2, 7)
END Check;

PROCEDURE Quit*;
BEGIN Out.String("gone"); Out.Ln; HALT(7)
END Quit;

PROCEDURE Deep(n: LONGINT): LONGINT;
BEGIN IF n = 1 THEN RETURN 1 ELSE RETURN Deep(n - 1) + 1 END
END Deep;

PROCEDURE Enough*;
BEGIN Out.Int(Deep(4095), 0); Out.Ln
END Enough;

PROCEDURE TooDeep*;
BEGIN Out.Int(Deep(4096), 0); Out.Ln
END TooDeep;

END Stops.
