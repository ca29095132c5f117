"""Cases of obchanges."""

import os

from bench import Files, put

LIBRARY = """MODULE A;
TYPE R* = RECORD own: LONGINT; v*: LONGINT END; P* = POINTER TO R;
CONST c* = 1; d* = 2;
VAR n*: LONGINT;
PROCEDURE Do*(x: LONGINT);
END Do;
END A.
"""
CLIENTS = {
    "Goes": "MODULE Goes; IMPORT A;\nPROCEDURE Go*;\nBEGIN A.n := A.d\nEND Go;\nEND Goes.\n",
    "Const": "MODULE Const; IMPORT A;\nPROCEDURE Go*;\nBEGIN A.n := A.c\nEND Go;\nEND Const.\n",
    "Calls": "MODULE Calls; IMPORT A;\nPROCEDURE Go*;\nBEGIN A.Do(1)\nEND Go;\nEND Calls.\n",
    "Has": "MODULE Has; IMPORT A;\nVAR r: A.R;\nEND Has.\n",
    "Other": "MODULE Other;\nEND Other.\n",
}
# The new version: c has another value, Do is gone, R has a hidden field more at its end, e is new.
NEWER = """MODULE A;
TYPE R* = RECORD own: LONGINT; v*: LONGINT; more: LONGINT END; P* = POINTER TO R;
CONST c* = 7; d* = 2; e* = 3;
VAR n*: LONGINT;
END A.
"""
# The lines on the clients, worked out from docs/RULES.md: what each uses, and what the new version does to it.
WANTED = """A: 6 objects, 1 new, 2 changed, 1 gone
Calls: A.Do absent
Const: A.c changed (shape)
Goes: goes on
Has: A.R changed (layout)
Other: goes on
3 of 5 clients would be refused
"""


def run(bench):
    with Files(A_Mod=LIBRARY) as folder:
        for name, source in CLIENTS.items():
            put(folder, name + ".Mod", source)
        bench.oberon(folder, ["compile A.Mod"] + ["compile %s.Mod" % name for name in CLIENTS])
        os.mkdir(os.path.join(folder, "next"))
        put(folder, "next/A.Mod", NEWER)
        source_cases(bench, folder)
        damaged_cases(bench, folder)
        refused_cases(bench, folder)


def ask(bench, folder, *words):
    out, err, status = bench.tool("obchanges", list(words) + ["--oberon", bench.program], folder)
    return out.decode(), err.decode(), status


def contents(folder):
    """The files of a folder with their bytes and times."""
    found = {}
    for name in sorted(os.listdir(folder)):
        path = os.path.join(folder, name)
        if os.path.isfile(path):
            with open(path, "rb") as file:
                found[name] = (file.read(), os.stat(path).st_mtime_ns)
    return found


def source_cases(bench, folder):
    before = contents(folder)
    bench.check("changes, by a source", ask(bench, folder, "next/A.Mod"), (WANTED, "", 1))
    bench.check("changes, of a folder that is named", ask(bench, os.path.join(folder, "next"), "A.Mod", ".."), (WANTED, "", 1))
    stale = WANTED.replace("Goes: goes on\n", "").replace("Other: goes on\n", "")
    bench.check("changes, stale ones alone", ask(bench, folder, "next/A.Mod", "--stale"), (stale, "", 1))
    bench.check("changes, the folder is as it was", contents(folder) == before, True)
    bench.check("changes, none", ask(bench, folder, "A.Mod"),
                ("A: 6 objects, 0 new, 0 changed, 0 gone\nCalls: goes on\nConst: goes on\nGoes: goes on\nHas: goes on\n"
                 "Other: goes on\n0 of 5 clients would be refused\n", "", 0))
    with Files(A_Mod=NEWER) as other:
        bench.oberon(other, ["compile A.Mod"])
        bench.check("changes, by a symbol file", ask(bench, folder, os.path.join(other, "A.Sym")),
                    (WANTED.replace("6 objects, 1 new, 2 changed, 1 gone", "6 objects"), "", 1))
        os.rename(os.path.join(other, "A.Sym"), os.path.join(other, "new version"))
        bench.check("changes, by a symbol file of another name", ask(bench, folder, os.path.join(other, "new version")),
                    (WANTED.replace("6 objects, 1 new, 2 changed, 1 gone", "6 objects"), "", 1))
    with Files() as empty:
        bench.check("changes, without clients", ask(bench, empty, os.path.join(folder, "next/A.Mod")),
                    ("A: 6 objects, 6 new, 0 changed, 0 gone\n0 of 0 clients would be refused\n", "", 0))
    # What the program itself does then.
    with Files(A_Mod=NEWER) as trial:
        for name, (data, _) in contents(folder).items():
            if name != "A.Mod":
                put(trial, name, data)
        answer = bench.oberon(trial, ["compile A.Mod", "Goes.Go", "Const.Go", "Calls.Go", "Has.Go"]).decode()
        bench.check("program, what it refuses then", answer.splitlines()[1:],
                    ["refused Const: A.c changed", "refused Calls: A.Do absent", "refused Has: A.R changed"])


def damaged_cases(bench, folder):
    with open(os.path.join(folder, "Other.Obj"), "rb") as file:
        whole = file.read()
    put(folder, "Other.Obj", whole[:-1])
    put(folder, "not a name.Obj", whole)
    want = WANTED.replace("Other: goes on\n", "Other: Other.Obj is damaged or of another format: compile Other again, already\n")
    want = want.replace("3 of 5 clients", "not a name.Obj: the program takes no file of this name\n4 of 5 clients")
    bench.check("changes, a damaged object file", ask(bench, folder, "next/A.Mod"), (want, "", 1))
    os.remove(os.path.join(folder, "not a name.Obj"))
    put(folder, "Other.Obj", whole)
    # The library itself may be damaged: it is replaced.
    put(folder, "A.Obj", b"OOBJ")
    bench.check("changes, the library's own object file damaged", ask(bench, folder, "next/A.Mod"), (WANTED, "", 1))
    # A client that is stale already, and one that the new version mends.
    bench.oberon(folder, ["compile A.Mod"])
    put(folder, "Old.Mod", LIBRARY.replace("c* = 1", "c* = 7"))
    bench.oberon(folder, ["compile Old.Mod", "compile Const.Mod", "compile A.Mod"])
    bench.check("changes, what is met again", ask(bench, folder, "next/A.Mod"),
                (WANTED.replace("Const: A.c changed (shape)", "Const: A.c met again\nConst: goes on").replace("3 of", "2 of"), "", 1))
    bench.check("changes, what is stale already", ask(bench, folder, "A.Mod", "--stale"),
                ("A: 6 objects, 0 new, 0 changed, 0 gone\nConst: A.c changed (shape), already\n1 of 5 clients would be refused\n", "", 1))


def refused_cases(bench, folder):
    put(folder, "Bad.Mod", "MODULE A;\nVAR x: INT;\nEND A.\n")
    cases = [
        ("a new version with a fault", ("Bad.Mod",), "obchanges: refused Bad.Mod: rule 2 at 2:8\n"),
        ("no new version", ("None.Mod",), "obchanges: there is no file None.Mod\n"),
        ("no folder", ("A.Mod", "none"), "obchanges: there is no folder none\n"),
    ]
    for name, words, want in cases:
        bench.check("changes, " + name, ask(bench, folder, *words), ("", want, 3))
    put(folder, "next/Cut.Sym", b"OSYM\1\0")
    bench.check("changes, a damaged symbol file", ask(bench, folder, "next/Cut.Sym"),
                ("", "obchanges: refused next/Cut.Sym: it is no symbol file\n", 3))
    out, err, status = bench.tool("obchanges", ["A.Mod", "--oberon", "no.such.program"], folder)
    bench.check("changes, without a program", (status, err, out),
                (3, b"obchanges: there is no program no.such.program: say where with --oberon PATH\n", b""))
