"""The transcripts of docs/TOOLS.md: each line behind a `$` is run, and has to write what stands below it."""

import os
import re
import subprocess
import sys

from bench import Files, documents, put

STACK = """MODULE Stack;  (* Numbers, one on another. *)
TYPE List* = POINTER TO Cell; Cell* = RECORD next: List; value-: LONGINT END;
VAR top-: List;

PROCEDURE Push*(x: LONGINT);
  VAR c: List;
BEGIN NEW(c); c.value := x; c.next := top; top := c
END Push;

PROCEDURE Pop*(): LONGINT;
  VAR x: LONGINT;
BEGIN x := top.value; top := top.next; RETURN x
END Pop;

END Stack.
"""
SUMS = """MODULE Sums; IMPORT Stack, Out;
PROCEDURE Go*;
BEGIN Stack.Push(30); Stack.Push(12); Out.Int(Stack.Pop() + Stack.Pop(), 0); Out.Ln
END Go;
PROCEDURE Empty*;
BEGIN Out.Int(Stack.Pop(), 0)
END Empty;
END Sums.
"""
PEEK = """MODULE Peek; IMPORT Stack, Out;
PROCEDURE Go*;
BEGIN Stack.Push(7); Out.Int(Stack.top.value, 0); Out.Ln
END Go;
END Peek.
"""
FILES = {
    "Stack1_Mod": STACK,
    "Stack3_Mod": STACK.replace("next: List; value-", "next: List; kind: CHAR; value-"),
    "Sums_Mod": SUMS, "Peek_Mod": PEEK,
    "first_script": "compile Stack1.Mod\ncompile Sums.Mod\ncompile Peek.Mod\n",
    "run_script": "compile Mean.Mod\nMean.Show\ncompile Half.Mod\nHalf.Go\n",
}


def run(bench):
    with open(os.path.join(documents(), "TOOLS.md"), encoding="utf-8") as file:
        page = file.read()
    first, behind = page.split("\n## obdef")
    for text in (first, behind):
        with Files(**FILES) as folder:
            put_programs(bench, folder)
            transcripts(bench, folder, text)


def transcripts(bench, folder, text):
    """The sources of a text are written into the folder, and its transcripts run there, in order."""
    name = None
    for part in re.split(r"```[a-z]*\n", text):
        if part.startswith("MODULE "):
            put(folder, name, part)
        elif part.startswith("$ "):
            for command, want in re.findall(r"^\$ (.*)\n((?:(?!\$ ).*\n)*)", part, re.M):
                bench.check("page, " + command, answer(folder, command), want)
        name = (re.findall(r"`([A-Za-z]+\.Mod)`", part) or [name])[-1]


def put_programs(bench, folder):
    """The program and the tools under their names, in a folder for the path."""
    place = os.path.join(folder, "bin")
    os.mkdir(place)
    for name, words in [("oberon", [bench.program])] + [
            (tool, [sys.executable, os.path.join(bench.tools, tool)]) for tool in ("obsay", "obdef", "obchanges")]:
        path = os.path.join(place, name)
        put(place, name, "#!/bin/sh\nexec %s \"$@\"\n" % " ".join("'%s'" % word for word in words))
        os.chmod(path, 0o755)


def answer(folder, command):
    path = os.path.join(folder, "bin") + os.pathsep + os.environ.get("PATH", "")
    return subprocess.run(["/bin/sh", "-c", command], cwd=folder, env=dict(os.environ, PATH=path), stdout=subprocess.PIPE,
                          stderr=subprocess.STDOUT, check=False).stdout.decode()
