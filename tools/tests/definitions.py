"""Cases of obdef."""

from bench import Files

# Each kind of object, by hand: what the program answers, and the definition.
KINDS = [
    ("nothing", "interface E: 0 objects\n", "DEFINITION E;\n\nEND E.\n"),
    ("constants", """interface M: 14 objects
const M.a BOOLEAN 1
const M.b BOOLEAN 0
const M.c CHAR 65
const M.d CHAR 13
const M.e CHAR 255
const M.f CHAR 34
const M.g SHORTINT -3
const M.h LONGINT -2147483648
const M.i SET 0
const M.j SET 57
const M.k SET -1
const M.l STRING "48616C6C6F"
const M.m STRING "73617920226E6F22"
const M.n STRING ""
""", """DEFINITION M;

  CONST
    a = TRUE;
    b = FALSE;
    c = "A";
    d = 0DX;
    e = 0FFX;
    f = 22X;
    g = -3;
    h = MIN(LONGINT);
    i = {};
    j = {0, 3 .. 5};
    k = {0 .. 31};
    l = "Hallo";
    m = 'say "no"';
    n = "";

END M.
"""),
    ("a string with a control character", 'interface M: 1 objects\nconst M.s STRING "410742"\n',
     'DEFINITION M;\n\n  CONST\n    s = "A B" (* 41 07 42 *);\n\nEND M.\n'),
    ("two elements of a set", "interface M: 1 objects\nconst M.s SET 3\n",
     "DEFINITION M;\n\n  CONST\n    s = {0, 1};\n\nEND M.\n"),
    ("variables", """interface M: 6 objects
var M.a * LONGINT
var M.b - LONGINT
var M.c * A.T
var M.d * M.d:
array M.d: . 4 M.d:[
array M.d:[ . 8 CHAR
""", """DEFINITION M;

  IMPORT A;

  VAR
    a, b-: LONGINT;
    c: A.T;
    d: ARRAY 4, 8 OF CHAR;

END M.
"""),
    ("a list of variables with others between", """interface M: 4 objects
var M.a * M.a:
array M.a: . 4 CHAR
var M.b * SET
var M.c - M.a:
""", """DEFINITION M;

  VAR
    a, c-: ARRAY 4 OF CHAR;
    b: SET;

END M.
"""),
    ("procedures", """interface M: 7 objects
proc M.Go ()NONE
proc M.P (=LONGINT,=LONGINT,&CHAR,=B.T)NONE
proc M.Q ()A.T
proc M.R (&M.R(1,=M.R(2,=M.R(3)LONGINT
open M.R(1 . CHAR
open M.R(2 . M.T
proctype M.R(3 . (=CHAR)NONE
""", """DEFINITION M;

  IMPORT A, B;

  PROCEDURE Go;
  PROCEDURE P (a, b: LONGINT; VAR c: CHAR; d: B.T);
  PROCEDURE Q (): A.T;
  PROCEDURE R (VAR a: ARRAY OF CHAR; b: ARRAY OF T; c: PROCEDURE (a: CHAR)): LONGINT;

END M.
"""),
    ("types", """interface M: 8 objects
alias M.A * LONGINT
array M.B * 8 CHAR
proctype M.C * ()NONE
proctype M.D * (=LONGINT)LONGINT
pointer M.E * M.E^
open M.E^ . CHAR
pointer M.F * M.F^
array M.F^ . 3 M.A
""", """DEFINITION M;

  TYPE
    A = LONGINT;
    B = ARRAY 8 OF CHAR;
    C = PROCEDURE;
    D = PROCEDURE (a: LONGINT): LONGINT;
    E = POINTER TO ARRAY OF CHAR;
    F = POINTER TO ARRAY 3 OF A;

END M.
"""),
    ("records", """interface M: 8 objects
record M.Empty * NONE
layout M.Empty 0 0
pointer M.List * M.ListDesc
record M.ListDesc * A.Desc f first - 2 M.List f x * 3 LONGINT f y - 4 LONGINT f name * 5 M.ListDesc.name p Add 1 p (=M.List,=LONGINT)NONE p Size 2 p ()LONGINT
layout M.ListDesc 13 3
array M.ListDesc.name . 8 CHAR
record M.Plain * NONE f inner * 0 M.Plain.inner p Clear 0 v ()NONE p Put 1 v (=CHAR,=CHAR)NONE
layout M.Plain 2 2
record M.Plain.inner . NONE f a * 0 CHAR f b * 1 CHAR
layout M.Plain.inner 2 0
var M.v * M.v:
record M.v: . NONE f n * 0 LONGINT
layout M.v: 1 0
""", """DEFINITION M;

  IMPORT A;

  TYPE
    Empty = RECORD END;
    List = POINTER TO ListDesc;
    ListDesc = RECORD (A.Desc)
      first-: List;
      x, y-: LONGINT;
      name: ARRAY 8 OF CHAR;
      PROCEDURE (l: List) Add (a: List; b: LONGINT);
      PROCEDURE (l: List) Size (): LONGINT
    END;
    Plain = RECORD
      inner: RECORD
        a, b: CHAR
      END;
      PROCEDURE (VAR p: Plain) Clear;
      PROCEDURE (VAR p: Plain) Put (a, b: CHAR)
    END;

  VAR
    v: RECORD
      n: LONGINT
    END;

END M.
"""),
    ("a receiver whose letter a parameter would have", """interface M: 2 objects
pointer M.A * M.R
record M.R * NONE p Put 0 p (=LONGINT,=CHAR)NONE
layout M.R 0 1
""", """DEFINITION M;

  TYPE
    A = POINTER TO R;
    R = RECORD
      PROCEDURE (a: A) Put (b: LONGINT; c: CHAR)
    END;

END M.
"""),
    ("a pointer to a record without a name", """interface M: 2 objects
pointer M.P * M.P^
record M.P^ . NONE f next * 0 M.P
layout M.P^ 1 0
""", "DEFINITION M;\n\n  TYPE\n    P = POINTER TO RECORD\n      next: P\n    END;\n\nEND M.\n"),
    ("hidden types that are reached", """interface M: 3 objects
pointer M.Node . M.NodeDesc
record M.NodeDesc . NONE f key * 0 LONGINT p Say 0 p ()NONE
layout M.NodeDesc 1 1
var M.first - M.Node
""", """DEFINITION M;

  TYPE
    Node (* hidden *) = POINTER TO NodeDesc;
    NodeDesc (* hidden *) = RECORD
      key: LONGINT;
      PROCEDURE (n: Node) Say
    END;

  VAR
    first-: Node;

END M.
"""),
    ("a pointer receiver whose pointer is not seen", """interface M: 1 objects
record M.R * NONE p Say 0 p ()NONE
layout M.R 0 1
""", "DEFINITION M;\n\n  TYPE\n    R = RECORD\n      PROCEDURE (p: POINTER TO R) Say\n    END;\n\nEND M.\n"),
]

SOURCE = """MODULE Stack;  (* Numbers, one on another. *)
IMPORT Out;
CONST Most* = 100; Name* = "stack"; hidden = 3;
TYPE
  List* = POINTER TO Cell;
  Cell* = RECORD next: List; value-, weight*: LONGINT; tags: SET END;
  Visit* = PROCEDURE (x: LONGINT; VAR go: BOOLEAN);
VAR
  top-: List; title*, note*: ARRAY 16 OF CHAR;
PROCEDURE Push*(x: LONGINT);
END Push;
PROCEDURE Pop*(): LONGINT;
BEGIN RETURN 0
END Pop;
PROCEDURE Read*(VAR s: ARRAY OF CHAR; t: ARRAY OF CHAR; f: Visit);
END Read;
PROCEDURE (c: List) Print*(width: INTEGER);
END Print;
PROCEDURE (c: List) hide;
END hide;
END Stack.
"""

DEFINED = """DEFINITION Stack;

  CONST
    Most = 100;
    Name = "stack";

  TYPE
    Cell = RECORD
      value-, weight: LONGINT;
      PROCEDURE (l: List) Print (a: INTEGER)
    END;
    List = POINTER TO Cell;
    Visit = PROCEDURE (a: LONGINT; VAR b: BOOLEAN);

  VAR
    note, title: ARRAY 16 OF CHAR;
    top-: List;

  PROCEDURE Pop (): LONGINT;
  PROCEDURE Push (a: LONGINT);
  PROCEDURE Read (VAR a: ARRAY OF CHAR; b: ARRAY OF CHAR; c: Visit);

END Stack.
"""


def run(bench):
    with Files(Stack_Mod=SOURCE) as folder:
        for name, text, want in KINDS:
            out, err, status = bench.tool("obdef", [], folder, text.encode())
            bench.check("definition, " + name, (out.decode(), err, status), (want, b"", 0))
        program_cases(bench, folder)
        stream_cases(bench, folder)


def program_cases(bench, folder):
    bench.oberon(folder, ["compile Stack.Mod"])
    out, err, status = bench.tool("obdef", ["Stack", "--oberon", bench.program], folder)
    bench.check("definition, by the program", out.decode(), DEFINED)
    bench.check("definition, status", (status, err), (0, b""))
    out, err, status = bench.tool("obdef", ["Stack", "--oberon", bench.program, "--folder", folder], "/")
    bench.check("definition, of another folder", out.decode(), DEFINED)
    out, err, status = bench.tool("obdef", ["Nothing", "--oberon", bench.program], folder)
    bench.check("definition, of no symbol file", (status, err, out), (1, b"obdef: refused Nothing.Sym: no interface\n", b""))
    out, err, status = bench.tool("obdef", ["Nothing", "Stack", "--oberon", bench.program], folder)
    bench.check("definition, one of two", (status, err, out.decode()), (1, b"obdef: refused Nothing.Sym: no interface\n", DEFINED))
    out, err, status = bench.tool("obdef", ["Stack", "--oberon", "no.such.program"], folder)
    bench.check("definition, without a program", (status, err, out),
                (2, b"obdef: there is no program no.such.program: say where with --oberon PATH\n", b""))
    out, err, status = bench.tool("obdef", ["a/b", "--oberon", bench.program], folder)
    bench.check("definition, of what is no name", (status, err), (2, b"obdef: a/b is no name of a module\n"))


def stream_cases(bench, folder):
    text = bench.oberon(folder, ["show Stack", "compile None.Mod", "show Stack"])
    out, err, status = bench.tool("obdef", [], folder, text)
    bench.check("definition, two among other lines", (out.decode(), err, status),
                (DEFINED + "\n" + DEFINED, b"", 0))
    out, err, status = bench.tool("obdef", [], folder, b"compiled A: 0 objects, 0 new, 0 changed, 0 gone\n")
    bench.check("definition, of other lines alone", (out, err, status),
                (b"", b"obdef: there is no answer of show M in this text\n", 1))
    out, err, status = bench.tool("obdef", [], folder, b"interface A: 2 objects\nconst A.x CHAR 1\n")
    bench.check("definition, of a text that is cut", (out, status), (b"", 1))
    out, err, status = bench.tool("obdef", [], folder, b"interface A: 1 objects\nrecord A.R * NONE f x\nlayout A.R 1 0\n")
    bench.check("definition, of a line that is none", (out, err, status),
                (b"", b"obdef: no interface has this: NONE f x\n", 1))
