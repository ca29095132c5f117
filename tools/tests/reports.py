"""Cases of obsay."""

import os
import subprocess
import sys
import time

import hints
from bench import Files, put, rows


def run(bench):
    hint_cases(bench)
    trap_cases(bench)
    place_cases(bench)
    refusal_cases(bench)
    stale_cases(bench)
    source_cases(bench)
    table_cases(bench)
    passing_cases(bench)
    word_cases(bench)


def say(bench, folder, text, *words):
    """What obsay writes to standard error for a text."""
    return bench.tool("obsay", list(words), folder, text if isinstance(text, bytes) else text.encode())[1].decode()


# ---- hints ----

def marked(source):
    """A source without its mark @: bytes, line, column by bytes, the line's text, the text in front of the place."""
    data = source.encode()
    at = data.index(b"@")
    begin = data.rfind(b"\n", 0, at) + 1
    line = data.count(b"\n", 0, at) + 1
    stop = data.find(b"\n", at)
    text = (data[begin:at] + data[at + 1:len(data) if stop < 0 else stop]).decode()
    return data[:at] + data[at + 1:], line, at - begin + 1, text, data[begin:at].decode()


def hint_cases(bench):
    """Each case by the program, which has to name the place that is marked, and by obsay."""
    cases = hints.FAULTS + hints.RULES
    texts = {row[0]: row for row in rows("RULES.md", "rule")}
    with Files(Lib_Mod=hints.LIB) as folder:
        script = ["compile Lib.Mod"]
        for number, case in enumerate(cases):
            put(folder, "C%d.Mod" % number, marked(case[2])[0])
            script.append("compile C%d.Mod" % number)
        answers = bench.oberon(folder, script).decode().splitlines()[1:]
        wanted = ["refused C%d.Mod: %s at %d:%d" % ((number, case[1]) + marked(case[2])[1:3]) for number, case in enumerate(cases)]
        said = blocks_of(say(bench, folder, "".join(line + "\n" for line in wanted)))
    for number, (case, answer, want) in enumerate(zip(cases, answers, wanted)):
        name, what, source, hint = case
        bench.check("program, %s: %s" % (what, name), answer, want)
        bench.check("hint, %s: %s" % (what, name), said.get("C%d.Mod" % number), block(number, what, source, hint, texts))


def blocks_of(text):
    """What was said of each file."""
    found, name = {}, None
    for line in text.splitlines(True):
        if ": error: " in line:
            name = line.split(":")[0]
        if name:
            found[name] = found.get(name, "") + line
    return found


def block(number, what, source, hint, texts):
    """What is to be said of a case."""
    _, line, col, text, front = marked(source)
    rule = what[5:] if what.startswith("rule ") else None
    if rule:
        said = "%s [%s]" % (texts[rule][1], what)
        hint = "often: " + texts[rule][3] if hint is hints.OFTEN else hint
    else:
        said = {"syntax": "syntax error", "symbol": "no symbol begins there, or a string or comment does not end [symbol]",
                "real": "a real number [real]", "long name": "a name of more than 64 characters [long name]",
                "too deep": "more than 200 levels of nesting [too deep]"}[what]
    if what == "syntax":
        said += "%s: no module goes on with this symbol [syntax]" % symbol_at(source)
    return "C%d.Mod:%d:%d: error: %s\n    %s\n    %s^\n%s" % (
        number, line, len(front) + 1, said, text.replace("\ufeff", " "), " " * len(front), "hint: %s\n" % hint if hint else "")


def symbol_at(source):
    """The symbol behind the mark, as far as these sources need it."""
    rest = source[source.index("@") + 1:]
    if not rest.strip():
        return " at the end of the text"
    word = ""
    for sign in rest:
        if not (sign.isalnum() or not word) or word and not word.isalnum():
            break
        word += sign
    for pair in (":=", "<=", ">=", ".."):
        word = pair if rest.startswith(pair) else word
    return " at " + word


# ---- traps ----

# For each kind its program, with a @ in front of the place, the text and the hint.
PLAIN = "MODULE T; IMPORT Out;\n%s\nPROCEDURE Go*;\n%sBEGIN\n  %s\nEND Go;\nEND T.\n"
POINTERS = "TYPE P = POINTER TO R; R = RECORD v: LONGINT END; Q = POINTER TO S; S = RECORD (R) w: LONGINT END;\nVAR p: P; q: Q;"
TRAPS = [
    ("1", PLAIN % ("VAR a: ARRAY 4 OF LONGINT; i: LONGINT;", "", "i := 4; a@[i] := 1"),
     "an index outside the array", "an index goes from 0 to LEN - 1"),
    ("2", PLAIN % (POINTERS, "", "p@.v := 1"), "a dereference or call of NIL",
     "p is NIL here: make the object with NEW first, or test for # NIL"),
    ("2", PLAIN % ("TYPE P = POINTER TO R; R = RECORD next: P; v: LONGINT END;\nVAR a: ARRAY 3 OF P;", "",
                   "NEW(a[1]); a[1].next@.v := 1"), "a dereference or call of NIL",
     "a[1].next is NIL here: make the object with NEW first, or test for # NIL"),
    ("2", PLAIN % ("VAR p: PROCEDURE (x: LONGINT);", "", "@p(1)"), "a dereference or call of NIL",
     "make the object with NEW first, or test for # NIL"),
    ("3", PLAIN % (POINTERS, "", "NEW(p); p@(Q).w := 1"), "a guard for another type", "test with IS first, or use WITH .. ELSE"),
    ("4", PLAIN % ("VAR i: LONGINT;", "", "@CASE i OF 1: Out.Ln END"), "a CASE without a label for the value", "give the CASE an ELSE"),
    ("5", PLAIN % (POINTERS, "", "NEW(p); @WITH p: Q DO p.w := 1 END"), "a WITH without a guard that holds", "give the WITH an ELSE"),
    ("6", PLAIN % ("PROCEDURE @F(): LONGINT;\nEND F;", "", "Out.Int(F(), 0)"), "a function that ends without RETURN",
     "each way through a function ends in a RETURN"),
    ("7", PLAIN % ("VAR i: LONGINT;", "", "i := 7 @DIV i"), "a divisor of 0 or less", "DIV and MOD want a divisor above 0: test it first"),
    ("8", PLAIN % ("VAR i: SHORTINT;", "", "i := 127; i := i @+ 1"), "a result outside its type",
     "compute in a larger type: LONG(x), or variables of LONGINT"),
    ("9", PLAIN % ("VAR i: LONGINT; s: SET;", "", "i := 32; @INCL(s, i)"), "an element of a set outside 0 to 31",
     "a SET has the elements 0 to 31"),
    ("10 20", PLAIN % ("VAR b: BOOLEAN;", "", "@ASSERT(b, 20)"), "an ASSERT that does not hold", "its number is 20"),
    ("10 0", PLAIN % ("VAR b: BOOLEAN;", "", "@ASSERT(b)"), "an ASSERT that does not hold", "its number is 0"),
    ("11 5", PLAIN % ("", "", "@HALT(5)"), "a HALT", "its number is 5"),
    ("12", PLAIN % ("VAR o: POINTER TO ARRAY OF LONGINT;", "", "@NEW(o, 2000000)"), "the heap is full",
     "nothing is given back: make fewer objects, or begin with oberon --heap N, N up to 4194304"),
    ("13", PLAIN % ("PROCEDURE D(n: LONGINT);\nBEGIN @D(n + 1)\nEND D;", "", "D(0)"), "the stack is full",
     "a procedure that calls itself without an end? Else less in local arrays"),
    ("14", PLAIN % ("TYPE R = RECORD v: LONGINT END; S = RECORD (R) w: LONGINT END;\nVAR r: R; s: S;\nPROCEDURE Set(VAR t: R);\n"
                    "BEGIN t @:= r\nEND Set;", "", "Set(s)"), "a record assignment to a variable of another dynamic type",
     "the variable behind the VAR parameter or pointer is of an extended type: assign its fields"),
    ("15", PLAIN % ("VAR a: ARRAY 2 OF CHAR;", "", 'a[0] := "x"; a[1] := "y"; @Out.String(a)'), "a character array without 0X",
     "an array that is used as a text holds a 0X behind its last character"),
    ("16", PLAIN % ("VAR o: POINTER TO ARRAY OF LONGINT; n: LONGINT;", "", "@NEW(o, n)"), "a length of NEW below 1",
     "NEW(p, n) wants an n of at least 1"),
]


def trap_cases(bench):
    for number, (kind, source, text, hint) in enumerate(TRAPS):
        data, line, col, shown, front = marked(source)
        with Files(T_Mod=data) as folder:
            answer = bench.oberon(folder, ["compile T.Mod", "T.Go"]).decode()
            report = "\ntrap %s at T %d:%d\n" % (kind, line, col)
            bench.check("program, trap %s, number %d" % (kind, number), answer.split("gone\n")[1], report)
            bench.check("trap %s, number %d" % (kind, number), say(bench, folder, answer),
                        "T.Mod:%d:%d: error: %s [trap %s]\n    %s\n    %s^\nhint: %s\n" % (
                            line, col, text, kind, shown, " " * len(front), hint))
    with Files(T_Mod=PLAIN % ("", "", "LOOP END")) as folder:
        answer = bench.oberon(folder, ["compile T.Mod", "T.Go"], ["--turns", "5"])
        bench.check("turns spent", say(bench, folder, answer),
                    "T.Mod:5:3: error: the command had no turn left [turns spent]\n      LOOP END\n      ^\n"
                    "hint: a loop or recursion without an end? Else begin with oberon --turns N, N up to 1000000000\n")
        bench.check("illegal", say(bench, folder, "\nillegal at T 7\n"),
                    "T: error: instruction 7 of T.Obj cannot be executed [illegal]\n"
                    "hint: this compiler does not make such a file: compile T.Mod again\n")
        bench.check("trap of a kind that is not known", say(bench, folder, "\ntrap 99 at T 5:3\n"),
                    "T.Mod:5:3: error: a kind that is not known here [trap 99]\n      LOOP END\n      ^\n")
    numbers = sorted(int(number) for row in rows("LANGUAGE.md", "kind") for number in row[0].split(","))
    bench.check("each kind of trap of the language has a case", sorted({int(trap[0].split()[0]) for trap in TRAPS}), numbers)


# ---- places ----

SLASH = "operands do not fit their operator [rule 21]"
DIV = "hint: integers are divided by DIV; / is for sets\n"


def place_cases(bench):
    cases = [
        ("CR LF", b"MODULE A;\r\nVAR x: LONGINT;\r\nBEGIN\r\n  x := x / 2\r\nEND A.\r\n", 4, 10, 10, "  x := x / 2", "         "),
        ("CR LF and no end of the last line", b"MODULE A;\r\nVAR x: LONGINT;\r\nBEGIN x := x / 2\r\nEND A.", 3, 14, 14,
         "BEGIN x := x / 2", " " * 13),
        ("tabs in front", b"MODULE A;\nVAR x: LONGINT;\nBEGIN\n\t\tx := x / 2\nEND A.\n", 4, 10, 10, "\t\tx := x / 2", "\t\t       "),
        ("a tab in the middle", b"MODULE A;\nVAR x: LONGINT;\nBEGIN\n  x :=\tx / 2\nEND A.\n", 4, 10, 10, "  x :=\tx / 2", "      \t  "),
        ("umlauts in a comment, UTF-8", "MODULE A;\nVAR x: LONGINT;\nBEGIN (* \u00e4\u00f6\u00fc *) x := x / 2\nEND A.\n".encode(),
         3, 27, 24, "BEGIN (* \u00e4\u00f6\u00fc *) x := x / 2", " " * 23),
        ("umlauts in a comment, Latin-1", "MODULE A;\nVAR x: LONGINT;\nBEGIN (* \u00e4\u00f6\u00fc *) x := x / 2\nEND A.\n".encode("latin-1"),
         3, 24, 24, "BEGIN (* \u00e4\u00f6\u00fc *) x := x / 2", " " * 23),
        ("umlauts and a tab", "MODULE A;\nVAR x: LONGINT;\nBEGIN (* \u00e4 *)\tx := x / 2\nEND A.\n".encode(),
         3, 23, 22, "BEGIN (* \u00e4 *)\tx := x / 2", " " * 13 + "\t" + " " * 7),
        ("wide signs in a comment", "MODULE A;\nVAR x: LONGINT;\nBEGIN (* \u4e2d\u6587 *) x := x / 2\nEND A.\n".encode(),
         3, 27, 23, "BEGIN (* \u4e2d\u6587 *) x := x / 2", " " * 24),
        ("an accent of its own in a comment", "MODULE A;\nVAR x: LONGINT;\nBEGIN (* e\u0301 *) x := x / 2\nEND A.\n".encode(),
         3, 24, 23, "BEGIN (* e\u0301 *) x := x / 2", " " * 21),
        ("a comment over lines in front", b"MODULE A;\nVAR x: LONGINT;\nBEGIN (* 1\n2 *) x := x / 2\nEND A.\n", 4, 13, 13,
         "2 *) x := x / 2", " " * 12),
        ("a control character in a comment", b"MODULE A;\nVAR x: LONGINT;\nBEGIN (* \x1b[1m *) x := x / 2\nEND A.\n", 3, 25, 25,
         "BEGIN (*  [1m *) x := x / 2", " " * 24),
    ]
    for name, data, line, col, column, shown, front in cases:
        with Files(A_Mod=data) as folder:
            answer = bench.oberon(folder, ["compile A.Mod"])
            bench.check("program, " + name, answer.decode(), "refused A.Mod: rule 21 at %d:%d\n" % (line, col))
            bench.check("place, " + name, say(bench, folder, answer),
                        "A.Mod:%d:%d: error: %s\n    %s\n    %s^\n%s" % (line, column, SLASH, shown, front, DIV))
    column_cases(bench)
    end_cases(bench)


def column_cases(bench):
    source = "MODULE A;\nVAR x: LONGINT;\nBEGIN (* \u00e4 \U0001f600 *) x := x / 2\nEND A.\n"
    with Files(A_Mod=source) as folder:
        report = "refused A.Mod: rule 21 at 3:28\n"
        for words, column in (((), 24), (("--columns", "characters"), 24), (("--columns", "bytes"), 28),
                              (("--columns", "utf16"), 25)):
            said = say(bench, folder, report, *words)
            bench.check("columns, %s" % (words[-1:] or "left out",), said.split(" ")[0], "A.Mod:3:%d:" % column)


def end_cases(bench):
    with Files(A_Mod=b"MODULE A;\r\nBEGIN\r\n  LOOP\r\n") as folder:
        answer = bench.oberon(folder, ["compile A.Mod"])
        bench.check("program, end of a text with CR LF", answer.decode(), "refused A.Mod: syntax at 4:1\n")
        bench.check("place, end of a text with CR LF", say(bench, folder, answer),
                    "A.Mod:4:1: error: syntax error at the end of the text: no module goes on with this symbol [syntax]\n"
                    "    \n    ^\nhint: the text ends, and the LOOP of line 3 has no END\n")
        bench.check("place behind the text", say(bench, folder, "refused A.Mod: rule 21 at 9:4\n"),
                    "A.Mod:9:4: error: %s\nnote: A.Mod has no line 9: it was changed since\n"
                    "hint: often: i / j for integers: write DIV\n" % SLASH)
        put(folder, "B.Mod", "\ufeffMODULE B;\nEND B.\n".encode("utf-16-le"))
        bench.check("UTF-16", say(bench, folder, "refused B.Mod: symbol at 1:1\n").split("\n")[3],
                    "hint: the file is UTF-16: save it as UTF-8")


# ---- refusals without a place ----

OTHER_A = "MODULE A;\nCONST c* = 1;\nPROCEDURE Go*;\nEND Go;\nPROCEDURE Hid;\nEND Hid;\nPROCEDURE Two*(n: LONGINT);\nEND Two;\nEND A.\n"
CLIENT = "MODULE K; IMPORT A;\nEND K.\n"


def refusal_cases(bench):
    cases = [
        ("no source", "refused B.Mod: no source",
         "B.Mod: error: no source: the folder has no such file, or one of more than 1,048,576 bytes\n"
         "hint: look for the name, and for the folder in which oberon was begun\n"),
        ("no source, in small letters", "refused a.mod: no source",
         "a.mod: error: no source: the folder has no such file, or one of more than 1,048,576 bytes\n"
         "hint: capital and small letters differ: there is A.Mod\n"),
        ("source too long", "refused A.Mod: too long",
         "A.Mod: error: too long: the folder has no such file, or one of more than 1,048,576 bytes\nhint: make two modules of it\n"),
        ("no interface", "refused K.Mod: A has no interface",
         "K.Mod:1:18: error: A has no interface: A.Sym is missing, or is no interface of A: compile A\n"
         "    MODULE K; IMPORT A;\n                     ^\nhint: compile A.Mod first, then K.Mod\n"),
        ("interface damaged", "refused K.Mod: A damaged",
         "K.Mod:1:18: error: A damaged: A.Sym is missing, or is no interface of A: compile A\n"
         "    MODULE K; IMPORT A;\n                     ^\nhint: compile A.Mod again, then K.Mod\n"),
        ("no interface below an import", "refused K.Mod: Deep has no interface",
         "K.Mod: error: Deep has no interface: Deep.Sym is missing, or is no interface of Deep: compile Deep\n"
         "hint: compile the source of Deep first, then K.Mod\n"),
        ("changed for another client", "refused B.Mod: A.c changed for K",
         "B.Mod: error: A.c changed for K: of the modules that are imported, K was compiled against another A.c than there is "
         "now: compile K again\nhint: compile K.Mod again, then B.Mod\n"),
        ("absent for another client", "refused B.Mod: A.c absent for K",
         "B.Mod: error: A.c absent for K: of the modules that are imported, K was compiled against another A.c than there is "
         "now: compile K again\nhint: compile K.Mod again (A has no c any more: if the source uses it, change that), then B.Mod\n"),
        ("cycle of a compile", "refused K.Mod: cycle through A",
         "K.Mod:1:18: error: cycle through A: A imports, directly or not, a module that imports A\n"
         "    MODULE K; IMPORT A;\n                     ^\nhint: modules don't import one another: put what both need into a third one\n"),
        ("unfit", "refused K.Mod: A.T^ unfit",
         "K.Mod: error: A.T^ unfit: the interfaces do not fit together. Of builds that were compiled it comes in one way "
         "that is known: A.T^ stands on a chain of more than 200 types, since a module below A changed after A was compiled. "
         "Else it is of files that no compiler made\nhint: compile A.Mod again\n"),
        ("limit of imports", "refused K.Mod: limit imports",
         "K.Mod: error: limit imports: more than 64 imports, Out counted\n"
         "hint: a module has at most 64 imports: put some of them behind a module of their own\n"),
        ("limit of code", "refused K.Mod: limit code",
         "K.Mod: error: limit code: a limit of the module: objects, words, frame, globals, procedures, operands, code, file\n"
         "hint: a module has at most 262144 instructions: make two modules of it\n"),
        ("no object file", "refused A: A has no object file",
         "A: error: A has no object file: A.Obj is missing, or is no object file of A\nhint: compile A.Mod first\n"),
        ("object file damaged", "refused K: A damaged",
         "K: error: A damaged: A.Obj is missing, or is no object file of A\nhint: compile A.Mod again\n"),
        ("object file too long", "refused K: B too long",
         "K: error: B too long: B.Obj is missing, or is no object file of B\nhint: compile the source of B again\n"),
        ("cycle of a load", "refused K: cycle through A",
         "K: error: cycle through A: object files that import one another\n"
         "hint: compile the sources of these modules again: a compile refuses imports in a circle\n"),
        ("too many modules", "refused K: too many modules",
         "K: error: too many modules: more than 255 modules\nhint: begin a new session, with fewer modules\n"),
        ("no room", "refused K: no room",
         "K: error: no room: variables of more than 262,144 words\n"
         "hint: make variables of modules smaller, or get large arrays by NEW\n"),
        ("no such command", "refused A: no command Walk",
         "A: error: no command Walk: the module has no exported procedure Walk without parameters and result\n"
         "hint: commands of A: Go\n"),
        ("command not exported", "refused A: no command Hid",
         "A: error: no command Hid: the module has no exported procedure Hid without parameters and result\n"
         "hint: a command is exported: PROCEDURE Hid*\n"),
        ("command with a parameter", "refused A: no command Two",
         "A: error: no command Two: the module has no exported procedure Two without parameters and result\n"
         "hint: a command has neither parameters nor a result: Two(n: LONGINT)\n"),
        ("command of another version", "refused A: no command Go",
         "A: error: no command Go: the module has no exported procedure Go without parameters and result\n"
         "hint: compile A.Mod again; a module that is loaded stays as it was: begin a new session\n"),
        ("compare without a file", "refused Old.Sym: no interface",
         "Old.Sym: error: no interface: the folder has no such file\nhint: compile Old first: that writes its symbol file\n"),
        ("compare of a damaged file", "refused Old.Save: damaged",
         "Old.Save: error: damaged: the file is no symbol file\nhint: compile the source of the module again\n"),
        ("show of a file too long", "refused A.Sym: too long",
         "A.Sym: error: too long: the file is longer than a symbol file can be\nhint: compile the source of A again\n"),
        ("no line of a script", "? line 3",
         "line 3 of the script: error: no line of a script\n"
         "hint: a line is: compile F, compare F G, check M, show M, demo N, or a command M.P\n"),
        ("a report behind output without an end of line", "abcrefused A: no command Walk",
         "A: error: no command Walk: the module has no exported procedure Walk without parameters and result\n"
         "hint: commands of A: Go\n"),
    ]
    with Files(A_Mod=OTHER_A, K_Mod=CLIENT) as folder:
        for name, report, want in cases:
            bench.check("refusal, " + name, say(bench, folder, report + "\n"), want)
        put(folder, "s.script", b"compile A.Mod\r\n\r\n  compil K.Mod\r\n")
        bench.check("refusal, no line of a script that is given", say(bench, folder, "? line 3\n", "--script", "s.script"),
                    "s.script:3:3: error: no line of a script\n      compil K.Mod\n      ^\n"
                    "hint: a line is: compile F, compare F G, check M, show M, demo N, or a command M.P\n")


# ---- stale clients ----

def stale_cases(bench):
    with Files(A_Mod=OTHER_A, A_Sym="", K_Mod=CLIENT) as folder:
        changed = "K was compiled against another A.c: compile K.Mod again"
        session = "begin a new session: A was loaded in this one before it was compiled again, and stays as it was loaded"
        load = "K: error: A.c changed: the client that is named was compiled against another A.c, or one that is gone: compile " \
               "the client again. Nothing else is refused\n"
        cases = [
            ("refused at a load", "refused K: A.c changed\n",
             load + "hint: %s; where `check K` says up to date, %s\n" % (changed, session)),
            ("absent at a load", "refused K: A.c absent\n", load.replace("A.c changed", "A.c absent", 1)
             + "hint: A has no c any more, which K uses: change K.Mod, and compile it again; "
             "where `check K` says up to date, %s\n" % session),
            ("up to date and refused", "check K: up to date\nrefused K: A.c changed\n",
             load + "hint: K is up to date with the files; %s\n" % session),
            ("compiled and refused", "compiled K: 0 objects, 0 new, 0 changed, 0 gone\nrefused K: A.c changed\n",
             load + "hint: K was compiled; %s\n" % session),
            ("stale and refused", "check K: 1 stale\nA.c shape changed\nrefused K: A.c changed\n",
             "K: warning: K would be refused: A.c changed\nhint: compile K.Mod again, then begin a new session\n"
             + load + "hint: %s\n" % changed),
            ("check", "check K: 2 stale\nA.c shape changed\nA.d shape changed\n",
             "K: warning: K would be refused: A.c changed, A.d changed\nhint: compile K.Mod again, then begin a new session\n"),
            ("check of both aspects", "check K: 2 stale\nA.T shape changed\nA.T layout changed\n",
             "K: warning: K would be refused: A.T changed\nhint: compile K.Mod again, then begin a new session\n"),
            ("check with an absent object", "check K: 1 stale\nA.c shape absent\n",
             "K: warning: K would be refused: A.c absent\n"
             "hint: what is absent is gone from its module: change K.Mod where it uses that, and compile it again\n"),
            ("check without a symbol file", "check K: 1 stale\nB.c shape absent\n",
             "K: warning: K would be refused: B.c absent\nhint: there is no B.Sym: compile the source of B first; then look again\n"),
            ("check that is cut", "check K: 2 stale\nA.c shape changed\n",
             "K: warning: K would be refused: A.c changed\nhint: compile K.Mod again, then begin a new session\n"),
            ("check with another line behind it", "check K: 1 stale\nA.c shape changed\nA.d shape changed\nok\n",
             "K: warning: K would be refused: A.c changed\nhint: compile K.Mod again, then begin a new session\n"),
        ]
        for name, report, want in cases:
            bench.check("stale, " + name, say(bench, folder, report), want)
        out, _, status = bench.tool("obsay", [], folder, b"check K: 1 stale\nA.c shape changed\n")
        bench.check("stale, status of a check", status, 0)
    session_case(bench)


def session_case(bench):
    """A module that is compiled again after it was loaded, by the program."""
    first = "MODULE A;\nCONST c* = 1;\nVAR v*: LONGINT;\nPROCEDURE Go*;\nEND Go;\nEND A.\n"
    with Files(A1_Mod=first, A2_Mod=first.replace("c* = 1", "c* = 2"),
               K_Mod="MODULE K; IMPORT A;\nPROCEDURE Go*;\nBEGIN A.v := A.c\nEND Go;\nEND K.\n") as folder:
        answer = bench.oberon(folder, ["compile A1.Mod", "A.Go", "compile A2.Mod", "compile K.Mod", "check K", "K.Go"])
        bench.check("program, a session with an older module loaded", answer.decode().splitlines()[-2:],
                    ["check K: up to date", "refused K: A.c changed"])
        bench.check("stale, a session with an older module loaded", say(bench, folder, answer).splitlines()[-1],
                    "hint: K was compiled; begin a new session: A was loaded in this one before it was compiled again, "
                    "and stays as it was loaded")


# ---- which source ----

def source_cases(bench):
    trap = "\ntrap 7 at A 3:9\n"
    head = "A.Mod:3:9: error: a divisor of 0 or less [trap 7]\n"
    hint = "hint: DIV and MOD want a divisor above 0: test it first\n"
    with Files() as folder:
        bench.check("source, none for a trap", say(bench, folder, trap),
                    "A:3:9: error: a divisor of 0 or less [trap 7]\n" + hint
                    + "note: no source of A was found: COL counts bytes here; say with --sources where it is\n")
        bench.check("source, none for a rule", say(bench, folder, "refused A.Mod: rule 21 at 3:9\n"),
                    "A.Mod:3:9: error: %s\nhint: often: i / j for integers: write DIV\n"
                    "note: no file A.Mod was found: COL counts bytes here; say with --sources where it is\n" % SLASH)
        os.mkdir(os.path.join(folder, "src"))
        put(folder, "src/A.Mod", "(* (* Two *) *)\nMODULE A;\nBEGIN x DIV y\n")
        bench.check("source, in another folder", say(bench, folder, trap, "--sources", "src"),
                    os.path.join("src", head) + "    BEGIN x DIV y\n            ^\n" + hint)
        bench.check("source, in the second folder", say(bench, folder, trap, "--sources", ".", "--sources", "src"),
                    os.path.join("src", head) + "    BEGIN x DIV y\n            ^\n" + hint)
        put(folder, "Some.txt", "MODULE A;\n\nBEGIN x DIV z\n")
        put(folder, "AB.Mod", "MODULE AB;\nEND AB.\n")
        bench.check("source, under another name", say(bench, folder, trap),
                    head.replace("A.Mod", "Some.txt") + "    BEGIN x DIV z\n            ^\n" + hint)
        version_cases(bench, folder, trap, head, hint)


def version_cases(bench, folder, trap, head, hint):
    for number in (1, 2, 3):
        put(folder, "A%d.Mod" % number, "MODULE A;\n\nBEGIN x DIV %d\n" % number)
        os.utime(os.path.join(folder, "A%d.Mod" % number), (1000 + number % 3, 1000 + number % 3))
    bench.check("source, the newest of three", say(bench, folder, trap),
                head.replace("A.Mod", "A2.Mod") + "    BEGIN x DIV 2\n            ^\n" + hint
                + "note: MODULE A is in A1.Mod and A3.Mod too; taken is the newest file (--script tells more)\n")
    put(folder, "s.script", "compile A1.Mod\ncompile B.Mod\nA.Go\ncompile A3.Mod\nA.Go\n")
    output = "compiled A: 1 objects, 1 new, 0 changed, 0 gone\nrefused B.Mod: no source\n" + trap
    said = say(bench, folder, output, "--script", "s.script")
    bench.check("source, by the script", said.split("\n", 2)[2], head.replace("A.Mod", "A1.Mod") + "    BEGIN x DIV 1\n"
                "            ^\n" + hint + "note: MODULE A is in A2.Mod and A3.Mod too; the script compiled A1.Mod last\n")
    output += "compiled A: 1 objects, 0 new, 0 changed, 0 gone\n" + trap
    said = say(bench, folder, output, "--script", "s.script")
    bench.check("source, by the script's next line", said.split("\n")[-2],
                "note: MODULE A is in A1.Mod and A2.Mod too; the script compiled A3.Mod last")
    for number in (1, 3):
        os.remove(os.path.join(folder, "A%d.Mod" % number))
    put(folder, "A.Obj", "")
    os.utime(os.path.join(folder, "A.Obj"), (900, 900))
    bench.check("source, newer than the object file", say(bench, folder, trap).split("\n")[-2],
                "note: A2.Mod is newer than A.Obj: the place may have moved")


# ---- the tables ----

NAMED = """# Rules

| name | is broken where | told at | the commonest mistake |
|---|---|---|---|

| rule | is broken where | told at | the commonest mistake |
|---|---|---|---|
| `operands` | operands of `a \\| b` don't fit | the operator | `i | j`: write `DIV` |

## Refusals of a compile

| text | what it says |
|---|---|
| `odd at l:c`, `even at l:c` | an odd number; an even number |
| `A.x lost for K` | K wants `A.x` of A |
"""


def table_cases(bench):
    with Files(A_Mod="MODULE A;\nBEGIN x / 2\n", R_md=NAMED) as folder:
        shown = "    BEGIN x / 2\n            ^\n"
        report = "refused A.Mod: rule 21 at 2:9\n"
        bench.check("table, a page that is missing", say(bench, folder, report, "--rules", "none.md"),
                    "A.Mod:2:9: error: rule 21 is broken; its text stands in docs/RULES.md, which was not found [rule 21]\n"
                    + shown + DIV)
        bench.check("table, syntax without a page", say(bench, folder, "refused A.Mod: syntax at 2:9\n", "--rules", "none.md"),
                    "A.Mod:2:9: error: syntax error at / [syntax]\n" + shown
                    + "hint: what is missing or too much stands here or in front of it\n")
        bench.check("table, a refusal without a page", say(bench, folder, "refused A: no room\n", "--rules", "none.md"),
                    "A: error: no room\nhint: make variables of modules smaller, or get large arrays by NEW\n")
        bench.check("table, a rule that it does not have", say(bench, folder, report, "--rules", "R.md"),
                    "A.Mod:2:9: error: rule 21 is broken; docs/RULES.md has no such rule [rule 21]\n" + shown + DIV)
        for reason in ("rule operands", "operands"):
            bench.check("table, rules with names: " + reason,
                        say(bench, folder, "refused A.Mod: %s at 2:9\n" % reason, "--rules", "R.md"),
                        "A.Mod:2:9: error: operands of a | b don't fit [rule operands]\n" + shown
                        + "hint: often: i | j: write DIV\n")
        bench.check("table, a text of two in one row", say(bench, folder, "refused A.Mod: even at 2:9\n", "--rules", "R.md"),
                    "A.Mod:2:9: error: an even number [even]\n" + shown)
        bench.check("table, names in a text", say(bench, folder, "refused A.Mod: B.y lost for C\n", "--rules", "R.md"),
                    "A.Mod: error: B.y lost for C: C wants B.y of B\n")
    numbers = [row[0] for row in rows("RULES.md", "rule")]
    cased = {case[1][5:] for case in hints.RULES if case[1].startswith("rule ")}
    bench.check("each rule of docs/RULES.md has a case", [number for number in numbers if number not in cased], [])


# ---- passing on ----

def passing_cases(bench):
    with Files(A_Mod="MODULE A;\nBEGIN x / 2\n") as folder:
        plain = bytes(range(256)) * 3 + b"\r\n\r\n\n\r \xff\xfe refuse A\n? line x\ntrap at M\nrefused\ncompiled A\n\x00\n"
        cases = [("all bytes", plain), ("no line at all", b""), ("a text without an end of line", b"abc"),
                 ("a report without an end of line", b"abc\nrefused A: no room"), ("a byte 13 in front of the end", b"a\r\nb\r\n"),
                 ("a line of 300,000 bytes", b"x" * 300000 + b"\nend\n"), ("empty lines", b"\n\n\n")]
        for name, text in cases:
            out, err, status = bench.tool("obsay", [], folder, text)
            bench.check("passed on, " + name, out, text)
        out, err, status = bench.tool("obsay", [], folder, plain)
        bench.check("nothing is said of what is no report", (err, status), (b"", 0))
        out, err, status = bench.tool("obsay", [], folder, b"abc\nrefused A: no room")
        bench.check("a report without an end of line is said", (err.split(b"\n")[0], status),
                    (b"A: error: no room: variables of more than 262,144 words", 1))
        out, err, status = bench.tool("obsay", [], folder, b"compiled A: 1 objects, 1 new, 0 changed, 0 gone\n"
                                      b"check A: up to date\ncompare A.Sym B.Sym: 1 verdicts\nx shape changed\n"
                                      b"interface A: 1 objects\nconst A.x CHAR 1\n")
        bench.check("nothing is said of what is in order", (err, status), (b"", 0))
        joined = bench.tool("obsay", [], folder, b"one\nrefused A.Mod: rule 21 at 2:9\ntwo\nrefused A: no room\n", True)[0]
        bench.check("order of output and remarks", joined.decode(),
                    "one\nrefused A.Mod: rule 21 at 2:9\nA.Mod:2:9: error: %s\n    BEGIN x / 2\n            ^\n%stwo\n"
                    "refused A: no room\nA: error: no room: variables of more than 262,144 words\n"
                    "hint: make variables of modules smaller, or get large arrays by NEW\n" % (SLASH, DIV))
        slow_case(bench, folder)
        closed_case(bench, folder)


def slow_case(bench, folder):
    """Each piece is handed on while the next has not come."""
    child = subprocess.Popen([sys.executable, os.path.join(bench.tools, "obsay")], cwd=folder, stdin=subprocess.PIPE,
                             stdout=subprocess.PIPE, stderr=subprocess.PIPE)
    got = []
    for piece in (b"one\n", b"tw", b"o\nrefused A: ", b"no room\n"):
        child.stdin.write(piece)
        child.stdin.flush()
        got.append(child.stdout.read(len(piece)))
    said = child.stderr.readline()
    child.stdin.close()
    bench.check("slow text is handed on at once", got, [b"one\n", b"tw", b"o\nrefused A: ", b"no room\n"])
    bench.check("a report in two pieces", said, b"A: error: no room: variables of more than 262,144 words\n")
    child.stdout.read()
    child.stderr.read()
    child.wait()
    child.stdout.close()
    child.stderr.close()


def closed_case(bench, folder):
    child = subprocess.Popen([sys.executable, os.path.join(bench.tools, "obsay")], cwd=folder, stdin=subprocess.PIPE,
                             stdout=subprocess.PIPE, stderr=subprocess.PIPE)
    child.stdout.close()
    try:
        child.stdin.write(b"one\n" * 10)
        child.stdin.flush()
        time.sleep(0.2)
        child.stdin.write(b"two\n" * 100000)
        child.stdin.close()
    except BrokenPipeError:
        pass
    said = child.stderr.read()
    bench.check("closed output", (child.wait(), said), (3, b""))
    child.stderr.close()


def word_cases(bench):
    with Files() as folder:
        for tool in ("obsay", "obdef", "obchanges"):
            out, err, status = bench.tool(tool, ["--help"], folder)
            bench.check("--help of " + tool, (status, b"exit status: 0" in out, err), (0, True, b""))
            out, err, status = bench.tool(tool, ["--frob"], folder)
            bench.check("words that %s does not have" % tool, (status, out), (2, b""))
        out, err, status = bench.tool("obsay", ["--script", "none"], folder)
        bench.check("a script that is not there", (status, err), (2, b"obsay: there is no script none\n"))
