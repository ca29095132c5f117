"""What the tests share: folders with files, runs of tools and of the program, and counted cases."""

import os
import subprocess
import sys
import tempfile


class Bench:
    """Counts cases; knows the program and the tools' folder."""

    def __init__(self, program, tools):
        self.program, self.tools = program, tools
        self.passed = self.failed = 0

    def check(self, name, got, want):
        """One case: the two are the same."""
        if got == want:
            self.passed += 1
            print("ok " + name)
        else:
            self.failed += 1
            print("FAILED %s: %s" % (name, difference(got, want)))
        sys.stdout.flush()

    def tool(self, name, words, folder, given=b"", joined=False):
        """Runs a tool: output, what it wrote to standard error, and its status."""
        done = subprocess.run([sys.executable, os.path.join(self.tools, name)] + words, cwd=folder, input=given,
                              stdout=subprocess.PIPE, stderr=subprocess.STDOUT if joined else subprocess.PIPE, check=False)
        return done.stdout, done.stderr, done.returncode

    def oberon(self, folder, lines, words=()):
        """The program's output for a script."""
        script = "".join(line + "\n" for line in lines).encode()
        return subprocess.run([self.program] + list(words), cwd=folder, input=script, stdout=subprocess.PIPE,
                              check=False).stdout


class Files:
    """A new folder with these files; texts are written as UTF-8."""

    def __init__(self, **files):
        self.files = {name.replace("_", "."): data for name, data in files.items()}

    def __enter__(self):
        self.folder = tempfile.TemporaryDirectory(prefix="tools")
        for name, data in self.files.items():
            put(self.folder.name, name, data)
        return self.folder.name

    def __exit__(self, *fault):
        self.folder.cleanup()


def put(folder, name, data):
    """Writes a file into a folder."""
    with open(os.path.join(folder, name), "wb") as file:
        file.write(data if isinstance(data, bytes) else data.encode())


def difference(got, want):
    """The first line in which two answers differ."""
    if not isinstance(got, (str, bytes)) or type(got) is not type(want):
        return "is %r and not %r" % (got, want)
    line_end = b"\n" if isinstance(got, bytes) else "\n"
    lines, wanted = got.split(line_end), want.split(line_end)
    for number, (line, other) in enumerate(zip(lines, wanted), 1):
        if line != other:
            return "line %d is %r and not %r" % (number, line, other)
    return "has %d lines and not %d; then %r" % (len(lines), len(wanted), (lines + wanted)[min(len(lines), len(wanted)):][:1])


def documents():
    """The folder docs of the repository."""
    return os.path.join(os.path.dirname(os.path.dirname(os.path.dirname(os.path.realpath(__file__)))), "docs")


def rows(page, first):
    """The rows of a page's table whose first heading is that word, as lists of cells without backquotes."""
    found, inside = [], False
    with open(os.path.join(documents(), page), encoding="utf-8") as file:
        for line in file:
            if line.startswith("| " + first + " |"):
                inside = True
            elif not line.startswith("|"):
                inside = False
            elif inside and not line.startswith("|--"):
                found.append([cell.strip().replace("`", "") for cell in line.strip()[1:-1].split("|")])
    return found
