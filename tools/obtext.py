"""What the companions share: symbols of a source, its places, the tables of docs/RULES.md, runs of the program."""

import os
import re
import shutil
import subprocess
import sys
import unicodedata

RESERVED = frozenset(
    "ARRAY BEGIN BY CASE CONST DIV DO ELSE ELSIF END EXIT FOR IF IMPORT IN IS LOOP MOD MODULE NIL OF OR "
    "POINTER PROCEDURE RECORD REPEAT RETURN THEN TO TYPE UNTIL VAR WHILE WITH".split())
PREDECLARED = frozenset(
    "ABS ASH CAP CHR LEN LONG MAX MIN ODD ORD SHORT ASSERT COPY DEC EXCL HALT INC INCL NEW "
    "BOOLEAN CHAR SHORTINT INTEGER LONGINT SET TRUE FALSE".split())
BASIC = frozenset("BOOLEAN CHAR SHORTINT INTEGER LONGINT SET".split())
SOURCE_LIMIT = 1048576

FILE_NAME = re.compile(r"[A-Za-z0-9][A-Za-z0-9.]{0,79}\Z")
IDENTIFIER = re.compile(r"[A-Za-z][A-Za-z0-9]{0,63}\Z")


# ---- symbols ----

class Token:
    """A symbol of a source: its kind, its text, its line and column by bytes, and where it begins and ends."""

    __slots__ = ("kind", "text", "line", "col", "start", "end")

    def __init__(self, kind, text, line, col, start, end):
        self.kind, self.text, self.line, self.col, self.start, self.end = kind, text, line, col, start, end

    def __repr__(self):
        return "%s %r %d:%d" % (self.kind, self.text, self.line, self.col)


class Symbols(list):
    """A source's symbols; behind the last one stands the end again, as often as it is asked for."""

    def __getitem__(self, at):
        if isinstance(at, int) and at >= len(self):
            return list.__getitem__(self, -1)
        return list.__getitem__(self, at)


_WORD = re.compile(r"[A-Za-z][A-Za-z0-9]*")
_NUMBER = re.compile(r"[0-9][0-9A-F]*[HX]|[0-9]+")
_STRING = re.compile(r'"[^"\n\x80-\xff]*"|\'[^\'\n\x80-\xff]*\'')
_MARK = re.compile(r":=|<=|>=|\.\.|[-+*/~&.,;|(\[{^=#<>:)\]}]")
_COMMENT_EDGE = re.compile(r"\(\*|\*\)")


def _comment_end(text, at):
    """Where the comment that begins at `at` ends; None where it does not. `(*)` is a beginning and no end."""
    depth = 0
    for edge in _COMMENT_EDGE.finditer(text, at):
        depth += 1 if edge.group() == "(*" else -1
        if depth == 0:
            return edge.end()
    return None


def tokens_of(data):
    """The symbols of a source's bytes. What is no symbol is a token of the kind `bad`; the last token is `end`."""
    text = data.decode("latin-1")
    tokens, at, line, begin = Symbols(), 0, 1, 0
    length = len(text)

    def put(kind, end):
        tokens.append(Token(kind, text[at:end], line, at - begin + 1, at, end))

    while at < length:
        sign = text[at]
        if sign == "\n":
            line, begin, at = line + 1, at + 1, at + 1
            continue
        if sign in "\t\r ":
            at += 1
            continue
        if text.startswith("(*", at):
            end = _comment_end(text, at)
            if end is None:
                put("bad", length)
                end = length
            breaks = text.count("\n", at, end)
            if breaks:
                line, begin = line + breaks, text.rfind("\n", at, end) + 1
            at = end
            continue
        kind, end = _symbol(text, at)
        put(kind, end)
        at = end
    tokens.append(Token("end", "", line, length - begin + 1, length, length))
    return tokens


def _symbol(text, at):
    """Kind and end of the symbol that begins at a place that is neither blank nor comment."""
    word = _WORD.match(text, at)
    if word:
        kind = "key" if word.group() in RESERVED else "word"
        return kind, word.end()
    number = _NUMBER.match(text, at)
    if number:
        end = number.end()
        if number.group()[-1] == "X":
            return "char", end
        if number.group()[-1] != "H" and text[end:end + 1] == "." and text[end:end + 2] != "..":
            return "bad", end
        return "int", end
    if text[at] in "\"'":
        string = _STRING.match(text, at)
        if string:
            return "string", string.end()
        stop = text.find("\n", at)
        return "bad", len(text) if stop < 0 else stop
    mark = _MARK.match(text, at)
    if mark:
        return "mark", mark.end()
    return "bad", at + 1


def heading_of(data):
    """The name behind MODULE at the beginning of a source's bytes, or None."""
    text, at = data.decode("latin-1"), 0
    while at < len(text):
        if text[at] in "\t\n\r ":
            at += 1
        elif text.startswith("(*", at):
            end = _comment_end(text, at)
            if end is None:
                return None
            at = end
        else:
            break
    found = re.compile(r"MODULE(?![A-Za-z0-9])").match(text, at)
    if found is None:
        return None
    front = text[found.end():found.end() + 4096].encode("latin-1")
    symbols = tokens_of(front)
    return symbols[0].text if symbols[0].kind == "word" else None


# ---- a source and its places ----

class Source:
    """The bytes of a source, and what stands where in it as an editor shows it."""

    def __init__(self, name, data):
        self.name, self.data = name, data
        self.lines = data.split(b"\n")
        self.encoding = encoding_of(data)
        self._tokens = None

    @property
    def tokens(self):
        if self._tokens is None:
            self._tokens = tokens_of(self.data)
        return self._tokens

    def has_line(self, line):
        return 1 <= line <= len(self.lines)

    def line_bytes(self, line):
        return self.lines[line - 1] if self.has_line(line) else b""

    def before(self, line, col):
        """The text of a line in front of a column that is counted in bytes."""
        return self.line_bytes(line)[:max(col - 1, 0)].decode(self.encoding, "ignore")

    def column(self, line, col, how="characters"):
        """The column as an editor counts it, from 1."""
        if how == "bytes" or not self.has_line(line):
            return col
        front = self.before(line, col)
        if how == "utf16":
            return len(front.encode("utf-16-le")) // 2 + 1
        return len(front) + 1

    def shown(self, line):
        """A line to be shown: without the byte 13 at its end, tabs kept, other control characters as blanks."""
        return printable(self.line_bytes(line).rstrip(b"\r").decode(self.encoding, "replace"))

    def caret(self, line, col):
        """What stands under the shown line: tabs under tabs, blanks under the rest, and the caret."""
        return "".join(_under(sign) for sign in printable(self.before(line, col))) + "^"


def encoding_of(data):
    """UTF-8 where the bytes are that, else Latin-1."""
    try:
        data.decode("utf-8")
        return "utf-8"
    except UnicodeDecodeError:
        return "latin-1"


def printable(text):
    return "".join(sign if sign == "\t" or unicodedata.category(sign) not in ("Cc", "Cf", "Cs", "Zl", "Zp")
                   else " " for sign in text)


def _under(sign):
    if sign == "\t":
        return "\t"
    if unicodedata.combining(sign):
        return ""
    return "  " if unicodedata.east_asian_width(sign) in "WF" else " "


def read_bytes(path, limit=None):
    """The bytes of a regular file, or None where there is none, it can't be read or it is longer than the limit."""
    try:
        if not os.path.isfile(path) or (limit is not None and os.path.getsize(path) > limit):
            return None
        with open(path, "rb") as file:
            return file.read()
    except OSError:
        return None


def write_out(text):
    """Writes to standard output, in UTF-8 wherever it goes; a reader that has gone is no fault."""
    try:
        sys.stdout.buffer.write(text.encode("utf-8", "replace"))
        sys.stdout.buffer.flush()
    except BrokenPipeError:
        os.dup2(os.open(os.devnull, os.O_WRONLY), 1)


# ---- the tables of docs/RULES.md ----

def alone(text):
    """A text without what sends its reader on to another place of its page."""
    text = re.sub(r" \(see below\)", "", text)
    return re.sub(r"\. [^.]*see below\.?$", "", text)


class Rules:
    """The tables of docs/RULES.md: each rule by its name, and each text of a refusal, whatever they are called."""

    def __init__(self, path):
        self.path = path
        self.rules, self.texts = {}, []
        data = read_bytes(path)
        self.found = data is not None
        if self.found:
            self._read(data.decode("utf-8", "replace"))

    def _read(self, page):
        section = ""
        for block in _blocks(page):
            if block[0].startswith("#"):
                section = block[0].strip("# ").lower()
                continue
            header = [cell.lower() for cell in cells_of(block[0])]
            for line in block[2:]:
                cells = cells_of(line)
                if header[0].startswith("rule"):
                    self.rules[plain(cells[0])] = dict(zip(header, cells))
                elif header[0].startswith("text") and len(cells) > 1:
                    self._put_texts(section, cells)

    def _put_texts(self, section, cells):
        templates = re.findall(r"`([^`]*)`", cells[0])
        meanings = cells[1].split("; ")
        if len(meanings) != len(templates):
            meanings = [cells[1]] * len(templates)
        for template, meaning in zip(templates, meanings):
            self.texts.append((section, template, pattern_of(template), alone(plain(meaning))))

    def rule(self, name):
        """The text of a rule, or None."""
        row = self.rules.get(name)
        cells = list(row.values()) if row else []
        return plain(cells[1]) if len(cells) > 1 else None

    def mistake(self, name):
        """The commonest mistake, as the table has it, or an empty text."""
        for title, cell in self.rules.get(name, {}).items():
            if "mistake" in title:
                return plain(cell)
        return ""

    def meaning(self, text, section=""):
        """What the tables say of a refusal's text, with its names in place of the letters that stand for them: the row
        of that very text before one with such letters. Only sections whose title has `section` in it are looked at."""
        rows = [row for row in self.texts if section in row[0]]
        for _, template, _, meaning in rows:
            if template == text:
                return meaning
        for _, template, pattern, meaning in rows:
            if pattern.match(text):
                return filled(meaning, template, text)
        return None


def _blocks(page):
    """The headings and tables of a page, each as a list of lines."""
    table = []
    for line in page.splitlines() + [""]:
        if line.startswith("|"):
            table.append(line)
            continue
        if len(table) > 2:
            yield table
        table = []
        if line.startswith("#"):
            yield [line]


def cells_of(line):
    """The cells of a table's row; a `|` between backquotes or behind `\\` is none of its edges."""
    cells, cell, quoted, escaped = [], "", False, False
    for sign in line.strip()[1:]:
        if escaped:
            cell, escaped = cell + sign, False
        elif sign == "\\":
            escaped = True
        elif sign == "|" and not quoted:
            cells.append(cell.strip())
            cell = ""
        else:
            quoted ^= sign == "`"
            cell += sign
    if cell.strip():
        cells.append(cell.strip())
    return cells


def plain(cell):
    """A cell's text without the marks of the page's writing."""
    return cell.replace("`", "").strip()


def pattern_of(template):
    """What a text of a table stands for: `l:c` two numbers, a single letter a word, `A.x` two names."""
    parts = []
    for word in template.split(" "):
        if word == "l:c":
            parts.append(r"\d+:\d+")
        elif re.match(r"[A-Z]\.[a-z]\Z", word):
            parts.append(r"[A-Za-z0-9]+\.\S+")
        elif re.match(r"[A-Za-z]\Z", word):
            parts.append(r"\S+")
        else:
            parts.append(re.escape(word))
    return re.compile(" ".join(parts) + r"\Z")


def filled(meaning, template, text):
    """A meaning with the names of a text in place of the capital letters of its template."""
    names = {}
    for letter, name in zip(template.split(" "), text.split(" ")):
        if re.match(r"[A-Z]\.[a-z]\Z", letter):
            names[letter], names[letter[0]] = name, name.split(".")[0]
        elif re.match(r"[A-Z]\Z", letter):
            names[letter] = name
    return re.sub(r"\b[A-Z]\b(\.[a-z]\b)?", lambda found: names.get(found.group())
                  or names.get(found.group()[0], found.group()[0]) + (found.group(1) or ""), meaning)


def rules_page():
    """Where docs/RULES.md stands: beside the tools' own folder."""
    return os.path.join(os.path.dirname(os.path.dirname(os.path.realpath(__file__))), "docs", "RULES.md")


# ---- runs of the program ----

class NoProgram(Exception):
    """The program could not be run."""


def find_program(name):
    """The path of the program, absolute, since it is run in other folders."""
    found = shutil.which(name)
    if found is None:
        raise NoProgram("there is no program %s: say where with --oberon PATH" % name)
    return os.path.abspath(found)


def run_program(program, folder, lines):
    """The output of the program for a script, as text, and its status."""
    script = "".join(line + "\n" for line in lines).encode("latin-1")
    try:
        done = subprocess.run([program], cwd=folder, input=script, stdout=subprocess.PIPE, check=False)
    except OSError as fault:
        raise NoProgram("%s could not be run: %s" % (program, fault.strerror)) from fault
    if done.returncode not in (0, 1):
        raise NoProgram("%s ended with status %d" % (program, done.returncode))
    return done.stdout.decode("latin-1"), done.returncode
