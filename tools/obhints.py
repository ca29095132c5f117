"""Hints: what a source shows at the place that a report names, and what to do about it."""

import re

from obtext import BASIC, PREDECLARED, RESERVED

# What each rule is about, by its name in docs/RULES.md: the only place here that knows these names.
TOPICS = {
    "1": "twice", "2": "unknown", "3": "kind", "4": "ending", "5": "taken", "6": "mark", "7": "leftout", "8": "outer", "9": "number",
    "10": "constant", "11": "trapping", "12": "length", "13": "openarray", "14": "base", "15": "pointerbase",
    "17": "result", "18": "forward", "19": "receiver", "20": "redefined", "21": "operands", "22": "selector",
    "23": "test", "24": "count", "25": "parameter", "26": "readonly", "27": "statement", "28": "predeclared",
    "31": "assign", "32": "condition", "33": "case", "34": "for", "35": "exit", "36": "return", "37": "with",
    "38": "guarded", "39": "value", "40": "super",
}

RELATIONS = frozenset("= # < <= > >= IN IS".split())
OPERATORS = frozenset("* / & DIV MOD + - OR".split())
STARTERS = frozenset("IF CASE WHILE REPEAT FOR LOOP EXIT RETURN WITH".split())
OPENERS = frozenset("RECORD IF CASE WHILE FOR LOOP WITH REPEAT".split())
EDGES = frozenset("; BEGIN THEN DO ELSE LOOP REPEAT |".split())
CLOSED = frozenset(") ] } ^ END NIL EXIT RETURN".split())

OTHER_WORDS = {
    "and": "and is &", "or": "or is OR", "not": "not is ~", "xor": "there is no xor; # of two BOOLEANs is that",
    "elseif": "write ELSIF", "elsif": "write ELSIF", "elif": "write ELSIF", "function": "write PROCEDURE",
    "program": "write MODULE", "uses": "write IMPORT", "using": "write IMPORT", "switch": "write CASE", "then": "write THEN",
    "break": "write EXIT, in a LOOP",
}
OTHER_TYPES = {
    "int": "LONGINT", "long": "LONGINT", "integer": "INTEGER or LONGINT", "short": "INTEGER", "byte": "SHORTINT",
    "bool": "BOOLEAN", "boolean": "BOOLEAN", "char": "CHAR", "string": "ARRAY 32 OF CHAR, with a length",
    "hugeint": "LONGINT", "cardinal": "LONGINT", "word": "LONGINT", "bitset": "SET",
}
CALLS = {
    "ABS": "ABS(x)", "ASH": "ASH(x, n)", "CAP": "CAP(c)", "CHR": "CHR(x)", "LEN": "LEN(v) or LEN(v, n)", "LONG": "LONG(x)",
    "MAX": "MAX(T)", "MIN": "MIN(T)", "ODD": "ODD(x)", "ORD": "ORD(c)", "SHORT": "SHORT(x)",
    "ASSERT": "ASSERT(b) or ASSERT(b, n)", "COPY": "COPY(x, v)", "DEC": "DEC(v) or DEC(v, n)", "EXCL": "EXCL(s, i)",
    "HALT": "HALT(n)", "INC": "INC(v) or INC(v, n)", "INCL": "INCL(s, i)", "NEW": "NEW(p), or NEW(p, n) for an open array",
}
CALL_WANTS = {
    "ABS": "x an integer", "ASH": "x and n integers", "CAP": "c a CHAR", "CHR": "x an integer",
    "LEN": "v an array, n a constant", "LONG": "x a SHORTINT or INTEGER", "MAX": "T the name of a basic type",
    "MIN": "T the name of a basic type", "ODD": "x an integer", "ORD": "c a CHAR", "SHORT": "x an INTEGER or LONGINT",
    "ASSERT": "b a BOOLEAN, n a constant", "COPY": "x a string or character array, v a character array",
    "DEC": "v an integer variable", "EXCL": "s a SET variable, i an integer", "HALT": "n a constant",
    "INC": "v an integer variable", "INCL": "s a SET variable, i an integer",
    "NEW": "p a pointer variable, n an integer",
}
OUT_PARAMETERS = {"Char": [("", "c", "CHAR")], "String": [("", "s", "ARRAY OF CHAR")],
                  "Int": [("", "i", "LONGINT"), ("", "n", "LONGINT")], "Ln": []}


# ---- what a source declares ----

class Heading:
    """A procedure's heading: its name, parameters as (mode, name, type), result, receiver, mark and line."""

    def __init__(self, name, parameters, result, receiver, exported, line):
        self.name, self.parameters, self.result = name, parameters, result
        self.receiver, self.exported, self.line = receiver, exported, line

    def shown(self):
        text = "; ".join("%s%s: %s" % (mode, name, kind) for mode, name, kind in self.parameters)
        return self.name + ("(" + text + ")" if text or self.result else "") + (": " + self.result if self.result else "")


def headings_of(tokens):
    """The headings of a source's procedures, forward declarations left out."""
    return [found for at in range(len(tokens)) if tokens[at].text == "PROCEDURE" and is_declaration(tokens, at)
            for found in [_heading(tokens, at + 1)] if found]


def is_declaration(tokens, at):
    """Whether the PROCEDURE at that index declares one, and is neither a type nor forward."""
    before = tokens[at - 1].text if at else ""
    return before not in ("=", ":", "OF", "TO") and tokens[at + 1].text != "^"


def _heading(tokens, at):
    receiver = ""
    if tokens[at].text == "(":
        close = closing(tokens, at)
        receiver = joined(tokens[at + 1:close])
        at = close + 1
    if at >= len(tokens) or tokens[at].kind != "word":
        return None
    name, line = tokens[at].text, tokens[at].line
    at += 1
    exported = tokens[at].text in ("*", "-")
    at += exported
    parameters, result = [], ""
    if tokens[at].text == "(":
        close = closing(tokens, at)
        parameters = _parameters(tokens[at + 1:close])
        at = close + 1
        if at < len(tokens) and tokens[at].text == ":":
            stop = index_of(tokens, at, (";",))
            result = joined(tokens[at + 1:stop])
    return Heading(name, parameters, result, receiver, exported, line)


def _parameters(tokens):
    found, mode, names, at = [], "", [], 0
    while at < len(tokens):
        text = tokens[at].text
        if text == "VAR":
            mode = "VAR "
        elif text == ":":
            stop = index_of(tokens, at, (";",))
            found += [(mode, name, joined(tokens[at + 1:stop])) for name in names]
            mode, names, at = "", [], stop
        elif tokens[at].kind == "word":
            names.append(text)
        at += 1
    return found


def index_of(tokens, at, texts):
    """The index of the first of these texts outside brackets, from `at` on; the length where there is none."""
    depth = 0
    while at < len(tokens):
        text = tokens[at].text
        if depth == 0 and text in texts:
            return at
        depth += text in ("(", "[", "{", "RECORD")
        depth -= text in (")", "]", "}", "END")
        at += 1
    return at


def closing(tokens, at):
    """The index of the bracket that closes the one at `at`; the last index where there is none."""
    depth = 0
    for place in range(at, len(tokens)):
        if tokens[place].kind == "mark":
            depth += tokens[place].text in "([{"
            depth -= tokens[place].text in ")]}"
            if depth == 0:
                return place
    return len(tokens) - 1


def joined(tokens):
    """Symbols as a text that can be read."""
    text = ""
    for token in tokens:
        tight = not text or token.text in (".", ",", ";", ")", "[", "]", ":", "^") or text[-1] in ".([^"
        text += token.text if tight else " " + token.text
    return text


def imports_of(tokens):
    """The imports of a source, each local name with its module's."""
    found, at = {}, 0
    while at < len(tokens) and tokens[at].text != "IMPORT":
        if tokens[at].text in ("CONST", "TYPE", "VAR", "PROCEDURE", "BEGIN", "END"):
            return found
        at += 1
    stop = index_of(tokens, at, (";",))
    names = tokens[at + 1:stop]
    for place, token in enumerate(names):
        if token.kind == "word" and (place == 0 or names[place - 1].text != ":="):
            renamed = place + 2 < len(names) and names[place + 1].text == ":="
            found[token.text] = names[place + 2].text if renamed else token.text
    return found


def declared_type(tokens, name):
    """The symbols behind `name =` in a source's TYPE sections, as far as its semicolon, or None."""
    for at in range(len(tokens) - 2):
        if tokens[at].text != name or tokens[at].kind != "word" or tokens[at - 1].text == ".":
            continue
        equal = at + 1 + (tokens[at + 1].text in ("*", "-"))
        if tokens[equal].text == "=" and tokens[at - 1].text in ("TYPE", ";"):
            return tokens[equal + 1:index_of(tokens, equal, (";",))]
    return None


# ---- the blocks around a place ----

class Block:
    """What an END or UNTIL will close: its first symbol, the name behind it, its line, and whether its BEGIN has come."""

    def __init__(self, word, name, line):
        self.word, self.name, self.line, self.begun = word, name, line, False


def blocks_before(tokens, index):
    """The blocks that are open in front of a symbol, and the one that was closed last."""
    stack, last = [], None
    for at in range(index):
        text = tokens[at].text
        if tokens[at].kind != "key":
            continue
        if text == "MODULE":
            stack.append(Block(text, tokens[at + 1].text, tokens[at].line))
        elif text == "PROCEDURE":
            found = _heading(tokens, at + 1) if is_declaration(tokens, at) else None
            if found:
                stack.append(Block(text, found.name, tokens[at].line))
        elif text in OPENERS:
            stack.append(Block(text, "", tokens[at].line))
        elif text == "BEGIN" and stack:
            stack[-1].begun = True
        elif text == "END" and stack or text == "UNTIL" and stack and stack[-1].word == "REPEAT":
            last = stack.pop()
    return stack, last


# ---- a place ----

class Place:
    """The symbol that a report names, among its neighbours; `outside` finds sources of other modules."""

    def __init__(self, source, line, col, outside=None):
        self.source, self.line, self.col, self.outside = source, line, col, outside
        self.tokens = source.tokens
        self.index = next((at for at, token in enumerate(self.tokens) if (token.line, token.col) >= (line, col)),
                          len(self.tokens) - 1)
        self.here = self.tokens[self.index]
        self.is_exact = (self.here.line, self.here.col) == (line, col)

    def at(self, offset):
        """The symbol so many behind this one; the end of the text where there is none."""
        place = self.index + offset
        return self.tokens[place] if 0 <= place < len(self.tokens) else self.tokens[-1]

    def before(self, offset=1):
        place = self.index - offset
        return self.tokens[place] if place >= 0 else None

    def text(self, offset=0):
        token = self.before(-offset) if offset < 0 else self.at(offset)
        return token.text if token else ""

    def touches(self, offset):
        """Whether the symbols at `offset` and `offset + 1` stand next to each other."""
        left, right = self.index + offset, self.index + offset + 1
        return 0 <= left and right < len(self.tokens) and self.tokens[left].end == self.tokens[right].start

    def statement_start(self):
        """The index of the first symbol of the statement, or of the declaration, around this place."""
        at = self.index
        while at > 0 and self.tokens[at - 1].text not in EDGES:
            at -= 1
        return at

    def heading_at(self, index):
        """Of the designator that begins at an index: its text, its procedure's heading if that is found, and the index
        behind it."""
        tokens, at = self.tokens, index + 1
        names = [tokens[index].text]
        while tokens[at].text in (".", "^", "["):
            if tokens[at].text == ".":
                names.append(tokens[at + 1].text)
                at += 2
            elif tokens[at].text == "[":
                at = closing(tokens, at) + 1
            else:
                at += 1
        return joined(tokens[index:at]), self.find(names, tokens[index:at]), at

    def find(self, names, designator):
        """The heading that a designator of these names means, as far as sources and names tell it."""
        imports = imports_of(self.tokens)
        if len(names) == 1:
            return single(found for found in headings_of(self.tokens) if found.name == names[0] and not found.receiver)
        if len(names) == 2 and len(designator) == 3 and names[0] in imports:
            return self.imported(imports[names[0]], names[1])
        bound = [found for found in headings_of(self.tokens) if found.name == names[-1] and found.receiver]
        return bound[0] if bound and len({found.shown() for found in bound}) == 1 else None

    def imported(self, module, name):
        if module == "Out":
            return Heading("Out." + name, OUT_PARAMETERS[name], "", "", True, 0) if name in OUT_PARAMETERS else None
        if self.outside is None:
            return None
        found = self.outside(module)
        if found is None:
            return None
        heading = single(one for one in headings_of(found) if one.name == name and one.exported and not one.receiver)
        if heading:
            heading.name = module + "." + name
        return heading


def single(items):
    """The first of these, or None."""
    return next(iter(items), None)


# ---- hints for places without a rule ----

def symbol_hint(place):
    """Where no symbol begins, or a string or comment does not end."""
    data = place.source.data
    if data.startswith((b"\xff\xfe", b"\xfe\xff")):
        return "the file is UTF-16: save it as UTF-8"
    if data.startswith(b"\xef\xbb\xbf") and (place.line, place.col) == (1, 1):
        return "the file begins with a byte order mark: save it without one"
    rest = place.source.line_bytes(place.line)[place.col - 1:].decode("latin-1")
    if rest.startswith("(*"):
        return "the comment that begins here does not end: comments nest, and each (* wants its *)"
    if rest[:1] in ("'", '"') and rest:
        if rest[0] in rest[1:]:
            return "between the marks of a string stand the characters 0 to 127 alone: no umlauts"
        return "a string ends on its own line, with the mark that it begins with"
    return _strange_sign(rest)


def _strange_sign(rest):
    sign = rest[:1]
    if rest.startswith("!="):
        return "unequal is #"
    known = {"!": "not is ~, unequal is #", "%": "the remainder is MOD", "_": "names have letters and digits alone",
             "$": "a hexadecimal number is 0FFH, with a digit in front and H behind",
             "\\": "strings have no signs behind \\: the end of a line is Out.Ln, a character is 0AX",
             "?": "there is no ? : write IF .. THEN .. ELSE .. END"}
    if sign in known:
        return known[sign]
    if sign and ord(sign) > 127:
        return "outside comments stand the characters 0 to 127 alone; names have letters from A to Z and digits"
    return "this sign is none of the language"


def real_hint(place):
    return "there are no real numbers: count in smaller units, as in cents; a range is 1 .. 5, with two dots"


def long_name_hint(place):
    return "names have at most 64 characters"


def deep_hint(place):
    return "take a part out into a procedure of its own"


def syntax_hint(place):
    """Where no module goes on with the symbol: the first of these that finds something."""
    for look in (_end_hint, _pair_hint, _sign_hint, _word_hint, _operand_hint, _assign_hint, _order_hint, _heading_hint,
                 _relation_hint, _array_hint, _keyword_missing_hint, _closing_hint, _begin_hint, _semicolon_hint):
        found = look(place)
        if found:
            return found
    return "what is missing or too much stands here or in front of it"


def _end_hint(place):
    stack, _ = blocks_before(place.tokens, place.index)
    if place.here.kind == "end":
        inner = [block for block in stack if block.word != "MODULE"]
        if inner:
            return "the text ends, and %s has no %s" % (block_text(inner[-1]), close_text(inner[-1]))
        if stack:
            return "the text ends without END %s." % stack[0].name
        if place.text(-1) != ".":
            return "a module ends with a period: END %s." % (place.text(-1) or "M")
        return None
    if not stack and place.text(-1) == "." and any(token.text == "END" for token in place.tokens[:place.index]):
        return "behind the module's final period stand blanks and comments alone"
    return None


def block_text(block):
    return "the %s of line %d" % (block.word + (" " + block.name if block.name else ""), block.line)


def close_text(block):
    return "UNTIL" if block.word == "REPEAT" else "END %s" % block.name if block.name else "END"


# Two signs that stand together in other languages: this symbol is the second or the first of them.
SECOND_OF = {"<>": "unequal is #", "==": "equal is =; an assignment is :=", "&&": "and is &", "->": "write p.f, or p^.f",
             "=<": "write <=", "=>": "write >=", "||": "or is OR", "**": "there are no powers: multiply",
             "*)": "this *) ends no comment"}
FIRST_OF = {"||": "or is OR", "+=": "write INC(x, n)", "-=": "write DEC(x, n)", "++": "write INC(x)", "--": "write DEC(x)",
            "->": "write p.f, or p^.f",
            "//": "a comment stands between (* and *)", "/*": "a comment stands between (* and *)"}


def _pair_hint(place):
    if place.touches(-1):
        found = SECOND_OF.get(place.text(-1) + place.text())
        if found:
            return found
        if place.text(-1) == "0" and re.match(r"x[0-9A-Fa-f]*\Z", place.text()):
            digits = place.text()[1:].upper() or "FF"
            return "a hexadecimal number ends with H: write %s%sH" % ("" if digits[0].isdigit() else "0", digits)
    if place.touches(0):
        found = FIRST_OF.get(place.text() + place.text(1))
        if found:
            return found
    if place.text() == "=" and place.text(-1) == ":" or place.text() == ":" and place.text(1) == "=":
        return ":= is one symbol, without a blank in it"
    return None


def _sign_hint(place):
    if place.text() in ("+", "-") and place.text(-1) in OPERATORS | {"~"}:
        return "a sign behind an operator wants brackets: %s (%s%s)" % (place.text(-1), place.text(), place.text(1))
    return None


def _operand_hint(place):
    """An operator, or `:=`, with nothing behind it."""
    if place.text(-1) in OPERATORS | RELATIONS | {"&", "~", ":="} and place.before().kind in ("mark", "key"):
        if place.here.kind == "mark" and place.text() in ");],.." or place.text() in (
                "THEN", "DO", "OF", "TO", "BY", "END", "ELSE", "ELSIF", "UNTIL"):
            return "behind %s a value is missing" % place.text(-1)
    return None


def _is_declared(place, at):
    """Whether a name stands in front of a statement as in a declaration."""
    name, start = place.tokens[at].text, place.statement_start()
    return any(place.tokens[before].text == name and place.tokens[before + 1].text in (",", ":", "=", "*", "-")
               for before in range(start))


def _word_hint(place):
    """A reserved word in small letters, or another language's: here, in front, or at the statement's beginning."""
    first = max(place.statement_start(), place.index - 6)
    for at in [place.index] + list(range(place.index - 1, first - 1, -1)):
        token = place.tokens[at]
        if token.kind != "word" or at < place.index and _is_declared(place, at):
            continue
        if token.text.lower() in OTHER_WORDS and token.text.upper() not in RESERVED - {"OR", "ELSIF", "THEN"}:
            return OTHER_WORDS[token.text.lower()]
        if token.text.upper() in RESERVED and (at == place.index or token.text in (token.text.lower(), token.text.title())):
            return "reserved words are capital: %s" % token.text.upper()
    return None


def _assign_hint(place):
    stack, _ = blocks_before(place.tokens, place.index)
    begun = bool(stack) and (stack[-1].begun or stack[-1].word not in ("MODULE", "PROCEDURE", "RECORD"))
    if place.text() == "=" and begun:
        start = place.statement_start()
        if place.text(-2) == "FOR":
            return "an assignment is :="
        if all(token.kind in ("word", "int", "string", "char") or token.text in (".", "[", "]", "^", ",", "+", "-")
               for token in place.tokens[start:place.index]) and place.tokens[start].kind == "word":
            return "an assignment is :="
    if place.text() == ":=" and not begun and not _missing_begin(place, stack):
        return "a constant or a type is declared with =, and the variables get their values behind BEGIN"
    if place.text() == ":=" and begun and place.tokens[place.statement_start()].text in ("IF", "WHILE", "UNTIL"):
        return "equal is =; := is an assignment"
    return None


def _missing_begin(place, stack):
    """Whether this symbol follows the first one behind a heading or a declaration, as in a statement."""
    at = place.index - 1
    while at > 0 and (place.tokens[at].kind == "word" or place.tokens[at].text in (".", "^", "[", "]")):
        at -= 1
    return place.tokens[at].text == ";" and any(block.word == "PROCEDURE" for block in stack)


def _order_hint(place):
    stack, last = blocks_before(place.tokens, place.index)
    if place.text() not in ("CONST", "TYPE", "VAR", "IMPORT") or not stack:
        return None
    if place.text() == "IMPORT":
        return "IMPORT stands once, directly behind the module's heading; its names have commas between them"
    if stack[-1].word in ("MODULE", "PROCEDURE") and not stack[-1].begun:
        if last and last.word == "PROCEDURE":
            return "constants, types and variables stand in front of the procedures"
        return None
    if stack[-1].word in ("MODULE", "PROCEDURE"):
        return "declarations stand in front of BEGIN"
    return None


def _heading_hint(place):
    if place.text() == ":" and place.before() and place.before().kind == "word":
        front = place.text(-2) if place.text(-1) not in ("*", "-") else place.text(-3)
        if front == "PROCEDURE":
            return "a function has brackets, also without parameters: PROCEDURE %s(): T" % place.text(-1)
    if place.text() == ":" and place.text(-1) == "*" and place.text(-3) == "PROCEDURE":
        return "a function has brackets, also without parameters: PROCEDURE %s*(): T" % place.text(-2)
    return None


def _relation_hint(place):
    """A second relation in one expression without brackets."""
    if place.text() not in RELATIONS:
        return None
    depth, at = 0, place.index - 1
    while at >= 0 and place.tokens[at].text not in EDGES | {":=", "IF", "ELSIF", "WHILE", "UNTIL", "RETURN", ",", "OF"}:
        text = place.tokens[at].text
        depth += text in (")", "]", "}")
        depth -= text in ("(", "[", "{")
        if depth < 0:
            return None
        if depth == 0 and text in RELATIONS:
            return "& and OR bind more than %s: write (a %s b) & (c %s d)" % (text, text, place.text())
        at -= 1
    return None


def _array_hint(place):
    if place.text() == "[" and place.text(-1) == "ARRAY":
        return "the length stands without brackets: ARRAY 10 OF T"
    if place.text() == "^" and place.text(-1) in ("=", ":", "OF"):
        return "write POINTER TO T"
    if place.text() == "{" and place.text(-1) in EDGES:
        return "a comment stands between (* and *)"
    return None


def _keyword_missing_hint(place):
    """IF, ELSIF, WHILE, FOR, CASE and WITH whose THEN, DO or OF has not come."""
    wanted = {"IF": "THEN", "ELSIF": "THEN", "WHILE": "DO", "FOR": "DO", "WITH": "DO", "CASE": "OF"}
    at = place.index - 1
    while at >= 0 and place.tokens[at].text not in EDGES | {"OF", "END"}:
        word = place.tokens[at].text
        if word in wanted:
            if place.text() == ";" or place.here.kind in ("word", "key") and place.text() not in ("THEN", "DO", "OF"):
                return "%s is missing behind the %s of line %d" % (wanted[word], word, place.tokens[at].line)
            if place.text() in ("THEN", "DO", "OF") and place.text() != wanted[word]:
                return "behind %s stands %s" % (word, wanted[word])
            return None
        at -= 1
    return None


def _closing_hint(place):
    """An END that closes another thing than it was meant for, and one that is missing."""
    stack, last = blocks_before(place.tokens, place.index)
    if place.here.kind == "word" and place.text(-1) == "END" and last and not last.name:
        if any(block.name == place.text() for block in stack):
            return "this END closes %s: an END is missing in front of it" % block_text(last)
        return None
    if place.text() in ("PROCEDURE", "MODULE") and stack and stack[-1].word in OPENERS:
        return "%s has no %s" % (block_text(stack[-1]), close_text(stack[-1]))
    if place.text() == "PROCEDURE" and stack and stack[-1].begun:
        return "%s has no %s" % (block_text(stack[-1]), close_text(stack[-1]))
    if place.text() == "UNTIL" and stack and stack[-1].word in OPENERS - {"REPEAT"}:
        return "%s has no %s" % (block_text(stack[-1]), close_text(stack[-1]))
    if place.text() == "UNTIL" and not any(block.word == "REPEAT" for block in stack):
        return "UNTIL ends a REPEAT, and none is open here"
    if place.text() == "ELSE" and place.text(-1) == "END":
        return "no END stands in front of ELSE"
    if place.text() == "END" and stack and stack[-1].word == "REPEAT":
        return "a REPEAT ends with UNTIL and a condition"
    if last and place.text(-1) == "END" and last.word in ("PROCEDURE", "MODULE") and last.name and place.here.kind != "word":
        return "behind this END stands the name of what it ends: END %s" % last.name
    return None


def _begin_hint(place):
    """A statement among the declarations."""
    stack, _ = blocks_before(place.tokens, place.index)
    if not stack or stack[-1].begun or stack[-1].word not in ("MODULE", "PROCEDURE"):
        return None
    is_statement = (place.text() in STARTERS or place.text() == ":="
                    or place.here.kind == "word" and place.text(1) in (":=", "(", ".", ";", "^", "[", "="))
    if is_statement and (place.text(-1) == ";" or place.text() == ":="):
        return "BEGIN is missing in front of the statements of %s" % block_text(stack[-1])
    return None


def _semicolon_hint(place):
    before = place.before()
    if before is None or not (before.kind in ("word", "int", "char", "string") or before.text in CLOSED):
        return None
    starts = (place.here.kind == "word" or place.text() in STARTERS
              or place.text() in ("CONST", "TYPE", "VAR", "PROCEDURE", "BEGIN", "IMPORT"))
    if not starts:
        return None
    if before.line < place.here.line:
        return "a ; is missing at the end of line %d" % before.line
    if place.here.kind == "word" and before.kind == "word" and place.text(1) in (";", ")", "*", "-"):
        return "a : , or ; is missing in front of it"
    return "a ; is missing in front of it"


# ---- a hint for a trap ----

def nil_name(place):
    """What is NIL where a dereference traps, as it stands in the source; None where that is not told."""
    if place.is_exact and place.text() in (".", "^", "[") and place.index > 0:
        return joined(place.tokens[_designator_start(place.tokens, place.index):place.index])
    return None


# ---- hints for rules ----

def rule_hint(topic, place):
    """What to do where a rule is broken, or None."""
    look = LOOKS.get(topic)
    return look(place) if look and place.is_exact else None


def _unknown(place):
    name = place.text()
    if name.upper() in PREDECLARED | RESERVED and name != name.upper():
        return "predeclared names and reserved words are capital: %s" % name.upper()
    if place.text(-1) == "." and place.before(2) is not None:
        return _unknown_of(place, place.text(-2), name)
    if name.lower() in OTHER_TYPES:
        return "write %s" % OTHER_TYPES[name.lower()]
    if re.match(r"[A-F][0-9A-F]*[HX]\Z", name):
        return "a number begins with a digit: 0%s" % name
    alike = single(token for token in place.tokens if token.kind == "word" and token.text != name
                   and token.text.lower() == name.lower())
    if alike:
        return "capital and small letters differ: there is %s in line %d" % (alike.text, alike.line)
    later = single(found for found in headings_of(place.tokens) if found.name == name and not found.receiver
                   and found.line > place.line)
    if later:
        return "it is declared below, in line %d: declare it in front, or write PROCEDURE^ %s" % (later.line, later.shown())
    if sum(token.text == name for token in place.tokens) == 1:
        if place.text(1) == ".":
            return "%s stands nowhere else in this source: a module that is used stands in the list of IMPORT" % name
        return "%s stands nowhere else in this source: is it misspelt?" % name
    return None


def _unknown_of(place, front, name):
    module = imports_of(place.tokens).get(front)
    if module == "Out":
        return "Out has Char, String, Int and Ln alone"
    if module:
        return "%s exports no %s: what has neither * nor - is not there for other modules" % (module, name)
    return "no field and no bound procedure %s is seen here: in other modules, what has neither * nor - is not there" % name


def _kind(place):
    if place.text() in imports_of(place.tokens) and place.text(1) != ".":
        return "%s is a module: write %s.name" % (place.text(), place.text())
    return None


def _ending(place):
    stack, last = blocks_before(place.tokens, place.index)
    if last and last.name:
        return "%s ends with END %s" % (block_text(last), last.name)
    return None


def _taken(place):
    return "the name is taken: Out is built in, and there is no SYSTEM"


def _mark(place):
    if place.text() == "-":
        return "- stands behind variables and fields of a module alone: write *"
    return "what stands inside a procedure is not exported: leave the mark out"


def _leftout(place):
    return {"REAL": "there are no real numbers: count in LONGINT, in smaller units",
            "LONGREAL": "there are no real numbers: count in LONGINT, in smaller units",
            "ENTIER": "there are no real numbers, so none are rounded"}.get(place.text())


def _outer(place):
    return "an inner procedure does not see %s: hand it over as a parameter" % place.text()


def _number(place):
    if place.text() in ("2147483648", "80000000H", "080000000H"):
        return "the least LONGINT is MIN(LONGINT)"
    if place.here.kind == "char":
        return "the last character is 0FFX"
    return "the greatest LONGINT is MAX(LONGINT), 2147483647 or 7FFFFFFFH; signs of bits are a SET"


def _constant(place):
    if place.text(-1) in ("ARRAY", ",") or place.text(-2) == "ARRAY":
        return "a length that is known in the run alone: POINTER TO ARRAY OF T, and NEW(p, n)"
    if place.text() == "NIL":
        return "NIL has no name of its own: write NIL where it is used"
    return None


def _openarray(place):
    return "give it a length, as in ARRAY 32 OF CHAR; or POINTER TO ARRAY OF T, and NEW(p, n)"


def _base(place):
    declared = declared_type(place.tokens, place.text())
    if declared and declared[0].text == "POINTER" and len(declared) > 2 and declared[2].kind == "word":
        return "%s is a pointer: write the record's name, RECORD (%s)" % (place.text(), joined(declared[2:]))
    if declared and declared[0].text == "POINTER":
        return "%s is a pointer to a record without a name: give that one a name, and extend it" % place.text()
    return None


def _pointerbase(place):
    return "put it into a record: POINTER TO RECORD v: T END"


def _result(place):
    return "give back a pointer, or hand over a VAR parameter for it"


def _receiver(place):
    if place.text(-1) == ":" and place.text(-3) == "(":
        return "a record is received as (VAR %s: %s)" % (place.text(-2), place.text())
    return None


def _redefined(place):
    name = place.text()
    others = [found for found in headings_of(place.tokens) if found.name == name and found.receiver
              and found.line != place.line]
    if others:
        return "in line %d it is %s, with the receiver (%s)" % (others[0].line, others[0].shown(), others[0].receiver)
    return None


def _operands(place):
    sign = place.text()
    brackets = _called_without_brackets(place)
    if brackets:
        return brackets
    if sign == "/":
        return "integers are divided by DIV; / is for sets"
    if sign == "+" and (place.at(1).kind == "string" or place.before() and place.before().kind == "string"):
        return "strings are not added: write them one after another, or COPY them into an array"
    if sign in ("&", "OR"):
        return "& and OR take BOOLEANs and bind more than = and <: write (a = b) %s (c = d)" % sign
    if sign == "~":
        return "~ takes a BOOLEAN and binds more than all others: write ~(a = b)"
    if sign in RELATIONS and "NIL" in (place.text(1), place.text(-1)):
        return "NIL is compared with pointers and procedure variables alone"
    return None


def _selector(place):
    if place.text(-1) == ")":
        return "nothing follows a call: keep its result in a variable first"
    if place.text() == "^":
        return "^ follows a pointer alone"
    if place.text() == "[":
        return "[ follows an array, and has as many indices as it has lengths at most"
    if place.text() == ".":
        return "a field is selected of a record, or of a pointer to one"
    return None


def _test(place):
    return "a variable's type is tested where it is a pointer or a VAR parameter of a record type, and for an extension of it"


def _count(place):
    name, heading, behind = place.heading_at(place.index)
    if heading is None:
        return None
    given = _given(place.tokens, behind)
    wants = len(heading.parameters)
    return "%s wants %s, and is given %s: %s" % (
        name, _parameters_text(wants), "none" if given == 0 else str(given), heading.shown())


def _given(tokens, at):
    """How many parameters stand in the brackets at `at`."""
    if tokens[at].text != "(" or tokens[at + 1].text == ")":
        return 0
    stop, count = closing(tokens, at), 1
    inner = at + 1
    while True:
        inner = index_of(tokens[:stop], inner, (",",))
        if inner >= stop:
            return count
        count, inner = count + 1, inner + 1


def _parameters_text(number):
    return "no parameter" if number == 0 else "1 parameter" if number == 1 else "%d parameters" % number


def _parameter(place):
    brackets = _procedure_value(place, place.index)
    if brackets:
        return brackets
    number, opening = _number_in_call(place)
    if opening is None:
        return None
    start = _designator_start(place.tokens, opening)
    name, heading, _ = place.heading_at(start)
    if heading and number <= len(heading.parameters):
        mode, label, kind = heading.parameters[number - 1]
        text = "parameter %d of %s is %s%s: %s" % (number, name, mode, label, kind)
        return text + (", which takes a variable of the same type" if mode else "")
    return None


def _number_in_call(place):
    """The number of the parameter at this place, from 1, and the index of its call's bracket."""
    depth, number = 0, 1
    for at in range(place.index - 1, -1, -1):
        text = place.tokens[at].text
        if text in (")", "]", "}"):
            depth += 1
        elif text in ("(", "[", "{"):
            if depth == 0:
                return (number, at) if text == "(" else (number, None)
            depth -= 1
        elif depth == 0 and text == ",":
            number += 1
        elif text == ";":
            break
    return number, None


def _designator_start(tokens, bracket):
    """The index of the first symbol of the designator in front of a bracket."""
    at = bracket - 1
    while at > 0:
        text = tokens[at].text
        if text in (")", "]"):
            depth = 0
            while at > 0:
                depth += tokens[at].text in (")", "]")
                depth -= tokens[at].text in ("(", "[")
                if depth == 0:
                    break
                at -= 1
            at -= 1
        elif text == "^":
            at -= 1
        elif tokens[at].kind == "word" and tokens[at - 1].text == ".":
            at -= 2
        else:
            break
    return max(at, 0)


def _readonly(place):
    imports = imports_of(place.tokens)
    if place.text() in imports and place.text(1) == ".":
        return "%s alone changes this: call a procedure of %s that does" % (imports[place.text()], imports[place.text()])
    if place.here.kind in ("int", "string", "char"):
        return "a VAR parameter takes a variable: put the value into one first"
    return None


def _statement(place):
    name, heading, behind = place.heading_at(place.index)
    if name in CALLS:
        return "%s gives a value: assign it, or use it in an expression" % name
    if heading and heading.result:
        return "%s gives a %s: assign it to a variable" % (name, heading.result)
    if heading:
        return "%s gives no value: call it as a statement of its own" % name
    if place.tokens[behind].text in (";", "END", "ELSE", "UNTIL", "|"):
        return "%s alone is no statement: an assignment is :=, and the call of a function is assigned" % name
    return None


def _predeclared(place):
    name = place.text()
    if name in CALLS:
        return "%s, with %s" % (CALLS[name], CALL_WANTS[name])
    return None


def _called_without_brackets(place):
    """A function that is named beside this operator and has no brackets."""
    start = place.index - 1
    if start >= 0 and place.tokens[start].kind == "word":
        while start > 1 and place.tokens[start - 1].text == ".":
            start -= 2
        found = _procedure_value(place, start)
        if found:
            return found
    return _procedure_value(place, place.index + 1)


def _procedure_value(place, index):
    """What to write where a function stands without brackets at an index."""
    if index >= len(place.tokens) or place.tokens[index].kind != "word":
        return None
    name, heading, behind = place.heading_at(index)
    if heading and heading.result and place.tokens[behind].text != "(":
        filled = ", ".join(label for _, label, _ in heading.parameters)
        return "%s is a procedure here; a call has brackets: %s(%s)" % (name, name, filled)
    return None


def _assign(place):
    brackets = _procedure_value(place, place.index + 1)
    if brackets:
        return brackets
    value = place.at(1)
    if value.kind == "string":
        size = len(value.text) - 2
        return "these %d characters and their 0X want an ARRAY OF CHAR of %d at least" % (size, size + 1)
    if value.text == "NIL":
        return "NIL is assigned to pointers and procedure variables alone"
    if value.kind == "char":
        return "a character is assigned to a CHAR or to an array of CHAR alone; its number is ORD(c)"
    return None


def _condition(place):
    brackets = _procedure_value(place, place.index)
    if brackets:
        return brackets
    if place.here.kind == "int":
        return "a condition is BOOLEAN: TRUE, FALSE or a comparison"
    return "a condition is BOOLEAN: compare, as in n # 0 or p # NIL"


def _case(place):
    return "CASE takes an integer or a CHAR; its labels are constants of that kind, each value once, and a .. b with a <= b"


def _with(place):
    return "WITH takes a pointer variable or a VAR parameter of a record type, and an extension of its type"


def _guarded(place):
    return "assign it to a variable of that type first, and hand that over"


def _forward(place):
    found = single(one for one in headings_of(place.tokens) if one.name == place.text())
    if found:
        return "in line %d it is %s: the two have the same parameters" % (found.line, found.shown())
    return "there is no PROCEDURE %s behind it, in the same scope" % place.text()


def _for(place):
    return "FOR i := a TO b BY 1 DO, with an integer variable i, and a step that is a constant and not 0"


def _exit(place):
    return "EXIT leaves a LOOP alone: write LOOP .. END, or end the WHILE by its condition"


def _return(place):
    stack, _ = blocks_before(place.tokens, place.index)
    block = single(block for block in reversed(stack) if block.word in ("PROCEDURE", "MODULE"))
    brackets = _procedure_value(place, place.index + 1)
    if brackets:
        return brackets
    if block and block.word == "MODULE":
        return "a module's body gives no value: RETURN alone"
    heading = block and single(found for found in headings_of(place.tokens) if found.line >= block.line
                               and found.name == block.name)
    if heading and heading.result:
        return "%s gives a %s: RETURN and such a value" % (heading.name, heading.result)
    if heading:
        return "%s gives no value: RETURN alone, or a result behind its brackets: %s(): T" % (heading.name, heading.name)
    return None


def _value(place):
    if place.text() in PREDECLARED - BASIC:
        return "a predeclared procedure is called, and is no value"
    return "a procedure that is a value stands at the module's own level; of one that is called the brackets are missing"


def _super(place):
    return "r.P^ calls the base's P, in a bound procedure whose receiver is r"


LOOKS = {
    "unknown": _unknown, "kind": _kind, "ending": _ending, "taken": _taken, "mark": _mark, "leftout": _leftout, "outer": _outer,
    "number": _number, "constant": _constant, "openarray": _openarray, "base": _base, "pointerbase": _pointerbase,
    "result": _result, "receiver": _receiver, "redefined": _redefined, "operands": _operands, "selector": _selector,
    "test": _test, "count": _count, "parameter": _parameter, "readonly": _readonly, "statement": _statement,
    "predeclared": _predeclared, "assign": _assign, "condition": _condition, "case": _case, "with": _with,
    "guarded": _guarded, "forward": _forward, "for": _for, "exit": _exit,
    "return": _return, "value": _value, "super": _super,
}
