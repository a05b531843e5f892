"""What the repository has: its files and pages, the names that its sources declare, the numbers of ops and of refusals. Read by
tests/documents."""
import os
import pathlib
import re

from uses import CRATES, ROOT

# words of the language and of the toolchain, of the text form, and a package
OTHERS = {"abbrev", "again", "axioms", "else", "goto", "graphviz", "if", "Lts", "match", "pub", "use"}
NAME = r"[^\W\d][\w'?-]*"
# what declares a name, by the ending of the file, and what is a comment there
DECLARES = {
    "antt": rf"^ *(?:(?:pub|abbrev|unfoldable|record|data) )*({NAME}) (?:: |[({{].* : )|^(?:pub )?mod ({NAME})",
    "rt": r"\b(?:fn|struct|enum|const|mod|requires|ensures) (\w+)|^\s+(?:pub )?(\w+)(?:: |,$| \{|\(\w+\),$)|\bu\d+::(\w+)",
    "rs": r"\b(?:fn|struct|enum|const|static|mod|trait|type) (\w+)",
    "c": r"\b(\w+)\(|\benum (\w+)|\b([A-Z_]{3,})\b",
    "h": r"\b(\w+)\(|\benum (\w+)|\b([A-Z_]{3,})\b",
    "": r"^(?:def )?(\w+)(?:\(| ?=)|\b([A-Z_]{3,})\b",
}
COMMENT = {"antt": r"--(?= |$).*", "rt": r"//.*", "rs": r"//.*", "c": r"/\*[\s\S]*?\*/", "h": r"/\*[\s\S]*?\*/", "": r"^ *#.*"}


def files():
    for folder, inner, names in os.walk(ROOT):
        in_crate = os.path.dirname(folder) == str(ROOT / "crates")
        inner[:] = [name for name in inner if name not in ("target", ".git", "__pycache__") and not (in_crate and name == "out")]
        yield from (os.path.relpath(os.path.join(folder, name), ROOT) for name in inner + names)


def read(path):
    return (ROOT / path).read_text(encoding="utf8", errors="replace")


def spec(name):
    return read(f"crates/model/specs/{name}.antt")


def ending(path):
    return pathlib.Path(path).suffix[1:]


FILES = set(files())
ENDINGS = {"a", *map(ending, FILES)} - {""}
# the request's own words, with names and figures as they were, stand in PROMISES and STATEMENTS, which tests/promises reads, and names of
# before in PORT, DESIGN-PASS and LOOK-BACK
PAGES = {f: read(f) for f in sorted(FILES) if re.fullmatch(r"(?:README|CONTRIBUTING|docs/(?!PROMISES|STATEMENTS|PORT|DESIGN-PASS|LOOK-BACK).*)\.md", f)}
# the pages that say what is so now, and two sources that tell it to people as well
TODAY = {f: text for f, text in PAGES.items() if not re.match(r"docs/(?:landings|examples|WRONG)", f)}
TODAY |= {f: re.sub(r"\s+(?:\* )?", " ", read(f)) for f in ("include/currantplane.h", "cli/src/help.rs")}
# the sources without their comments, and what they declare; tests/documents names what is gone
CODE = {f: re.sub(COMMENT[ending(f)], "", read(f), flags=re.M) for f in sorted(FILES - {"tests/documents"})
        if ending(f) in DECLARES and (ROOT / f).is_file()}
DECLARED = {f: {name for m in re.finditer(DECLARES[ending(f)], text, re.M) for name in m.groups()} for f, text in CODE.items()}
IMPORTED = {name for text in CODE.values() for m in re.finditer(r"^(?:pub )?(?:ghost )?use [\w.]+\{([^}]*)\}", text, re.M) for name in m[1].split(", ")}
KNOWN = OTHERS.union(IMPORTED, *DECLARED.values(), (pathlib.Path(f).stem for f in FILES))
# a quote after a word of a script is no prime
USED = {word for text in CODE.values() for word in re.findall(rf"{NAME}|\w+", text) for word in (word, word.rstrip("'"))}
SCRIPTS = "".join(text for f, text in CODE.items() if not ending(f))
# what the programs print
PRINTED = "".join(read(f) for f in sorted(FILES) if ending(f) == "out")
SHOWN = PRINTED + "".join(text for f, text in PAGES.items() if f.startswith("docs/examples/"))
# the statements in words, by their numbers: a constructor's comment, or its name
FORMS = {int(n): form or name for name, n, form in re.findall(r"^  (\w+) : .*Op  -- (\d+)(?:: (.*?))?(?: \(.*)?$", spec("Machine"), re.M)}
FAULTS = [int(n) for n in re.findall(r"^fault_number \w+ = (\d+)", spec("Machine"), re.M)]


def form(statement):
    """A statement with u and w for its pointers."""
    return re.sub(r"\bp\d\b", "w", re.sub(r"\bp\d\b", "u", statement, count=1))


def is_path(word):
    return re.fullmatch(r"[\w./*-]+", word) and ("/" in word or ending(word) in ENDINGS)


def there(path):
    """The file or folder that is meant: from the root; an edit of a crate; else the end of a path, of model first."""
    path = path.rstrip("/")
    first, _, rest = path.partition("/")
    for whole in (path.removeprefix("./"), f"crates/{first}/must-fail/{rest}.edit", f"tests/wrong/{first}/{rest}.edit"):
        if whole in FILES:
            return whole
    ends = [] if first == "." or first in FILES else [f for f in FILES if f.endswith((f"/{path}", f"/{path}.antt"))]
    return min(ends, key=lambda f: (not f.startswith("crates/model/specs"), not f.startswith("crates/model"), f), default=None)


def numbers(text):
    """The numbers of a list, ranges too: '1 to 3, 5 and 9'."""
    return [n for a, b in re.findall(r"(\d+)(?: to (\d+))?", text) for n in range(int(a), int(b or a) + 1)]


def ticked(text):
    return re.findall(r"`([^`\n]+)`", text)


def sections(page):
    return dict(section.partition("\n")[::2] for section in re.split(r"^## ", read(page), flags=re.M)[1:])


def rows(page, title):
    """The rows of the first table of a section, without its head."""
    section = next((text for name, text in sections(page).items() if name.startswith(title)), "")
    table = "".join(re.findall(r"(?:^\|.*\n?)+", section, re.M)[:1])
    return [[cell.strip() for cell in line.split("|")[1:-1]] for line in table.splitlines()[2:]]


def edits(crate="*"):
    return len([*CRATES.glob(f"{crate}/must-fail/*.edit")])


def constructors(kind):
    found = [m[1] for f, text in CODE.items() for m in [re.search(rf"^pub data {kind}\b.*\n((?:  .*\n)+)", text, re.M)] if m]
    return len(re.findall(rf"^  {NAME} :", found[0], re.M)) if found else 0


def value(name, path):
    return int(re.search(rf"\b{name}(?:: usize)?[ =]+(\d+)", read(path))[1])


def refusals():
    """The numbers of refusals by where they are looked at, in the order of the checks."""
    lists = {}
    for name, text in re.findall(r"^(numbers_\w+) = (.*)", spec("Listings"), re.M):
        lists[name] = [n for word in re.findall(r"\d+|numbers_\w+", text) for n in lists.get(word) or [int(word)]]
    checks = dict(re.findall(r"^(checks?_\w+) .*=([\s\S]*?)\n\n", spec("Image"), re.M))
    image, counters, step = ([int(n) for n in re.findall(r"unless (\d+)", checks[name])] for name in ("checks_image", "check_counters", "checks_step"))
    return {"input": lists["numbers_input"][:4], "S record": lists["numbers_s"], "H record": lists["numbers_h"],
            "tables": lists["numbers_translate"][-2:], "heap image": image, "unfolding": counters, "plain step": step,
            "one record out of the tables": numbers(re.search(r"refusal (\d+)", spec("Part"))[1]),
            "moves and walks": sorted({int(n) for n in re.findall(r"stays_with (\d\d)", spec("Walking"))}),
            "ranges": [*dict.fromkeys(int(n) for n in re.findall(r"refused_at (\d\d)", spec("Ranges")))]}
