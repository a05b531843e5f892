"""Which crates and modules the files under crates/ name, and what crates.txt lists. Read by tests/layers and docs/graph."""
import pathlib
import re

ROOT = pathlib.Path(__file__).resolve().parent.parent
CRATES = ROOT / "crates"
# the crate that Rust and C link
LIBRARY = "currantplane"
# the kit's library that lines of crates.txt may name, for a number's digits and for buffers; std is always there, and no line names it
KIT = {"io"}

# Rattle.NAME.specs.X, of the own crate too; the same with proofs
MODULE = re.compile(r"(?<![\w.])Rattle\.(\w+)\.([\w.'-]*[\w'-])")
# the first name of a path in code
CODE_PATH = re.compile(r"(?<![\w:])([a-z]\w*)::")


def listed():
    """The lines of crates.txt: each crate with those that it names, in their order."""
    rows = (line.split("#")[0].split(":") for line in (ROOT / "crates.txt").read_text(encoding="utf8").splitlines())
    # after the name it may say that the crate is a static library
    return {row[0].split()[0]: row[1].split() for row in rows if len(row) == 2}


def sources(crate, part, ending):
    """The sources of a crate, without what a check writes."""
    found = (CRATES / crate / part).rglob(f"*.{ending}")
    return sorted(file for file in found if "out" not in file.relative_to(CRATES / crate).parts[:1])


def lines(file):
    """The lines of a file, each with its place and without its comment."""
    mark = "//" if file.suffix == ".rt" else "--"
    for number, line in enumerate(file.read_text(encoding="utf8").splitlines(), 1):
        yield f"{file.relative_to(ROOT)}:{number}", re.split(rf"(?:^|\s){mark}", line)[0]


def declared(file):
    """The modules that a file declares, in their order."""
    found = (re.match(r"(?:pub )?mod (\w+)", line) for _, line in lines(file))
    return [m[1] for m in found if m]


def modules(file):
    """The modules of crates that a file names, std's too: place, crate, and the path in it, which begins with specs or proofs."""
    return [(place, m[1], tuple(m[2].split("."))) for place, line in lines(file) for m in MODULE.finditer(line)]


def used_by(crate):
    """The other crates that a crate's files name, each with its places."""
    code = sources(crate, "src", "rt")
    # a module of the crate itself may have a crate's name
    known = KIT | set(listed()) - {name for file in code for name in declared(file)}
    found = [(other, place) for file in sources(crate, ".", "antt") + code for place, other, _ in modules(file)]
    found += [(name, place) for file in code for place, line in lines(file) for name in CODE_PATH.findall(line) if name in known]
    used = {}
    for other, place in found:
        if other not in (crate, "std"):
            used.setdefault(other, []).append(place)
    return used


def groups():
    """The modules of model in the order in which they are declared: its definitions, and its laws folder by folder."""
    folder = CRATES / "model"
    laws = declared(folder / "proofs/Lib.antt")
    return {("specs",): declared(folder / "specs/Lib.antt")} | {("proofs", name): declared(folder / f"proofs/{name}.antt") for name in laws}
