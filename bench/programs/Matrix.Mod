MODULE Matrix;  (* Products of two matrices of integers. *)
IMPORT Out;

CONST N = 40; Times = 100;

TYPE Square = ARRAY N, N OF LONGINT;

VAR a, b, c: Square; seed: LONGINT;

PROCEDURE Next(): LONGINT;
BEGIN seed := (seed * 1309 + 13849) MOD 65536; RETURN seed
END Next;

PROCEDURE Fill(VAR m: Square);
  VAR i, j: LONGINT;
BEGIN
  FOR i := 0 TO N - 1 DO
    FOR j := 0 TO N - 1 DO m[i, j] := Next() MOD 120 - 60 END
  END
END Fill;

PROCEDURE Multiply(VAR x, y, to: Square);
  VAR i, j, k, sum: LONGINT;
BEGIN
  FOR i := 0 TO N - 1 DO
    FOR j := 0 TO N - 1 DO
      sum := 0;
      FOR k := 0 TO N - 1 DO sum := sum + x[i, k] * y[k, j] END;
      to[i, j] := sum
    END
  END
END Multiply;

PROCEDURE Go*;
  VAR i, total: LONGINT;
BEGIN
  seed := 74755; Fill(a); Fill(b);
  FOR i := 1 TO Times DO Multiply(a, b, c) END;
  total := 0;
  FOR i := 0 TO N - 1 DO total := total + c[i, i] END;
  Out.Int(total, 0); Out.Ln
END Go;

END Matrix.
