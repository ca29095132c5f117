MODULE Symbols;  (* The kinds of symbols of Oberon-2, and its reserved words. *)

IMPORT Out;

CONST
  end* = 0; fault* = 1; comment* = 2;
  name* = 3; number* = 4; character* = 5; string* = 6;

  plus* = 10; minus* = 11; times* = 12; slash* = 13; not* = 14; and* = 15;
  equal* = 16; unequal* = 17; less* = 18; notMore* = 19; more* = 20;
  notLess* = 21; period* = 22; range* = 23; comma* = 24; semicolon* = 25;
  colon* = 26; becomes* = 27; bar* = 28; arrow* = 29;
  open* = 30; close* = 31; openIndex* = 32; closeIndex* = 33;
  openSet* = 34; closeSet* = 35;

  array* = 40; begin* = 41; by* = 42; case* = 43; const* = 44; div* = 45;
  do* = 46; else* = 47; elsif* = 48; endWord* = 49; exit* = 50; for* = 51;
  if* = 52; import* = 53; in* = 54; is* = 55; loop* = 56; mod* = 57;
  module* = 58; nil* = 59; of* = 60; or* = 61; pointer* = 62; procedure* = 63;
  record* = 64; repeat* = 65; return* = 66; then* = 67; to* = 68; type* = 69;
  until* = 70; var* = 71; while* = 72; with* = 73;
  firstWord* = array; lastWord* = with;

  places = 64;

TYPE
  Word* = ARRAY 10 OF CHAR;

VAR
  words-: ARRAY 74 OF Word;             (* by kind *)
  table: ARRAY places OF INTEGER;       (* kinds, by a number of the word; 0: none *)
  steps: INTEGER;                       (* beyond the first place, for all words *)

PROCEDURE Place(VAR word: ARRAY OF CHAR): INTEGER;
  VAR i, n: INTEGER;
BEGIN
  i := 0; n := 0;
  WHILE word[i] # 0X DO n := (n * 5 + ORD(word[i])) MOD places; INC(i) END;
  RETURN n
END Place;

(* The kind of a reserved word, else name. *)
PROCEDURE Find*(VAR word: ARRAY OF CHAR): INTEGER;
  VAR at: INTEGER;
BEGIN
  at := Place(word);
  WHILE (table[at] # 0) & (words[table[at]] # word) DO at := (at + 1) MOD places END;
  IF table[at] = 0 THEN RETURN name ELSE RETURN table[at] END
END Find;

PROCEDURE Enter(word: ARRAY OF CHAR; kind: INTEGER);
  VAR at: INTEGER;
BEGIN
  COPY(word, words[kind]); at := Place(word);
  WHILE table[at] # 0 DO at := (at + 1) MOD places; INC(steps) END;
  table[at] := kind
END Enter;

PROCEDURE Describe*;
BEGIN
  Out.Int(lastWord - firstWord + 1, 0); Out.String(" words in ");
  Out.Int(places, 0); Out.String(" places, ");
  Out.Int(steps, 0); Out.String(" steps beyond the first place"); Out.Ln
END Describe;

BEGIN
  Enter("ARRAY", array); Enter("BEGIN", begin); Enter("BY", by);
  Enter("CASE", case); Enter("CONST", const); Enter("DIV", div);
  Enter("DO", do); Enter("ELSE", else); Enter("ELSIF", elsif);
  Enter("END", endWord); Enter("EXIT", exit); Enter("FOR", for);
  Enter("IF", if); Enter("IMPORT", import); Enter("IN", in); Enter("IS", is);
  Enter("LOOP", loop); Enter("MOD", mod); Enter("MODULE", module);
  Enter("NIL", nil); Enter("OF", of); Enter("OR", or);
  Enter("POINTER", pointer); Enter("PROCEDURE", procedure);
  Enter("RECORD", record); Enter("REPEAT", repeat); Enter("RETURN", return);
  Enter("THEN", then); Enter("TO", to); Enter("TYPE", type);
  Enter("UNTIL", until); Enter("VAR", var); Enter("WHILE", while);
  Enter("WITH", with)
END Symbols.
