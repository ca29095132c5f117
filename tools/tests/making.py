"""Cases of obmake."""

import hashlib
import os

from bench import Files, put

BASE = "MODULE Base; PROCEDURE One*(): LONGINT; BEGIN RETURN 1 END One; END Base.\n"
MIDDLE = "(* over Base *) MODULE Middle; IMPORT B := Base, Out; PROCEDURE Go*; BEGIN Out.Int(B.One(), 0) END Go; END Middle.\n"
TOP = "MODULE Top; IMPORT Middle, Base; PROCEDURE Go*; BEGIN Middle.Go END Go; END Top.\n"
OTHER = "MODULE Other; END Other.\n"


def run(bench):
    """All cases."""
    with Files(Base1_Mod=BASE, Middle_Mod=MIDDLE, Top_Mod=TOP, Other_Mod=OTHER) as folder:
        def make(*words):
            return bench.tool("obmake", list(words), folder)

        def set_time(file, time):
            os.utime(os.path.join(folder, file), (time, time))

        everything = b"compile Base1.Mod\ncompile Middle.Mod\ncompile Other.Mod\ncompile Top.Mod\n"
        bench.check("obmake: nothing was compiled yet", make(), (everything, b"", 0))
        bench.check("obmake: what one module needs", make("Middle"), (b"compile Base1.Mod\ncompile Middle.Mod\n", b"", 0))
        bench.oberon(folder, make()[0].decode().splitlines())
        for file in os.listdir(folder):
            set_time(file, 1000000 if file.endswith(".Mod") else 2000000)
        bench.check("obmake: all was compiled", make(), (b"", b"", 0))
        set_time("Middle.Mod", 3000000)
        bench.check("obmake: a source that is newer", make(), (b"compile Middle.Mod\n", b"", 0))
        bench.check("obmake: it is not among the modules asked for", make("Other"), (b"", b"", 0))
        set_time("Middle.Mod", 1000000)
        os.remove(os.path.join(folder, "Base.Sym"))
        bench.check("obmake: an interface is missing", make("Top"), (b"compile Base1.Mod\n", b"", 0))
        bench.oberon(folder, ["compile Base1.Mod"])

        names = ("Base1.Mod", "Middle.Mod", "Other.Mod", "Top.Mod")
        texts = dict(zip(names, (BASE, MIDDLE, OTHER, TOP)))
        put(folder, "digests", "".join("%s  %s\n" % (hashlib.sha256(texts[name].encode()).hexdigest(), name) for name in names))
        set_time("Top.Mod", 4000000)
        bench.check("obmake: the time says nothing where digests are asked for", make("--digests", "digests"), (b"", b"", 0))
        put(folder, "Other.Mod", OTHER + "\n")
        set_time("Other.Mod", 1000000)
        bench.check("obmake: another digest", make("--digests", "digests"), (b"compile Other.Mod\n", b"", 0))
        bench.check("obmake: no digests yet", make("--digests", "none", "Middle"), (b"compile Base1.Mod\ncompile Middle.Mod\n", b"", 0))
        put(folder, "digests", "this is none\n")
        bench.check("obmake: a file that has no digests", make("--digests", "digests"), (b"", b"obmake: digests: this is no line of sha256sum: this is none\n", 1))
        bench.check("obmake: no such source", make("Nowhere"), (b"", b"obmake: there is no source of module Nowhere\n", 1))
        bench.check("obmake: words", make("--what")[2], 2)

        put(folder, "Base2.Mod", BASE)
        bench.check("obmake: two sources of one module", make(), (b"", b"obmake: Base1.Mod and Base2.Mod are both module Base\n", 1))
        os.remove(os.path.join(folder, "Base2.Mod"))
        put(folder, "Base1.Mod", "MODULE Base; IMPORT Top; END Base.\n")
        bench.check("obmake: a cycle", make(), (b"", b"obmake: cycle through Base\n", 1))
        put(folder, "Base1.Mod", BASE)
        put(folder, "Torn.Mod", "this is no module\n")
        bench.check("obmake: a text that is no module is left to the compiler", make()[0].splitlines()[-1], b"compile Torn.Mod")
