"""Reads the functions of the crates: where each stands, its contract and its body. `clauses.py` makes its lists from them.

A function of an `impl Trait for Type` is of the kind `trait`: its contract is the one of the trait. The methods that a trait itself declares
are of the kind `method`, and all others of the kind `own`.
"""

import os
import re

ROOT = os.path.join(os.path.dirname(os.path.abspath(__file__)), "..", "..")
TESTS = ["layer_tests", "nursery_tests"]
NO_CODE = re.compile(r"""//[^\n]*|b?"(?:\\.|[^"\\])*"|b?'(?:\\[^']*|[^'\\\n])'""", re.S)
FUNCTION = re.compile(r"^[ \t]*(pub(?:\([a-z]+\))? )?((?:const |async |unsafe |ghost )*)fn (\w+)", re.M)
BLOCK = re.compile(r"^(pub(?:\([a-z]+\))? )?(impl|trait)\b", re.M)
CLAUSE = re.compile(r"\s*(requires|ensures|ghost)\b(\*?)[^{]*\{")
BRACKET = re.compile(r"[(){}\[\]]")
USE = re.compile(r"^pub use ([^;]+);", re.M)
PUBLIC_MODULE = re.compile(r"^pub mod (\w+);", re.M)
NAMED_TYPE = re.compile(r"^pub (?:struct|enum|trait|union|type) (\w+)", re.M)


class Function:
    """A function: its crate and file, its type if it has one, its name, its parts, and their places in the file's text."""

    def __init__(self, crate, path, code, found, block):
        self.crate, self.path = crate, path
        self.kind, self.owner, self.trait = block
        self.seen, self.name = found[1], found[3]
        head_end = end_of_head(code, found.end())
        self.ensures, body = read_clauses(code, head_end)
        end = end_of_block(code, body) if code[body] == "{" else body + 1
        self.head, self.clauses, self.body = code[found.end() : head_end], code[head_end:body], code[body:end]
        self.places = (found.end(), head_end, body, end)
        self.is_public = False

    @property
    def title(self):
        return f"{self.owner}::{self.name}" if self.owner else self.name

    @property
    def module(self):
        return os.path.basename(self.path).removesuffix(".rt")

    def is_law(self):
        """Whether its contract is all that there is to it: it changes nothing, and yet has an `ensures`."""
        return bool(self.ensures) and self.changes_nothing()

    def changes_nothing(self):
        """Whether it returns nothing and changes nothing that it is given: a law, or a function that is called for its effects."""
        returned = re.search(r"->\s*([^{]*)$", self.head.split(" where ")[0])
        is_empty = returned is None or re.fullmatch(r"Result<\(\),.*>|\(\)|io::Result<\(\)>", returned[1].strip(), re.S)
        return bool(is_empty) and "&mut" not in self.head

    def has_clause(self):
        """Whether an `ensures` names the result or a new state; of a function that changes nothing, whether it has any `ensures`."""
        spoken = any(re.search(r"(?<![\w.-])result(?![\w-])|\.(new|exit)\b", clause) for clause in self.ensures)
        return spoken or self.is_law()


def blanked(text):
    """The text with a blank for each character of a comment, a string or a character, so that every place stays the same."""
    return NO_CODE.sub(lambda found: re.sub(r"[^\n]", " ", found[0]), text)


def end_of_block(code, at):
    """The place after the bracket that closes the one at this place."""
    depth = 0
    for bracket in BRACKET.finditer(code, at):
        depth += 1 if bracket[0] in "{([" else -1
        if depth == 0:
            return bracket.end()
    raise ValueError("a bracket is not closed")


def end_of_head(code, at):
    """The place at which a signature ends: before the first clause, the body or the semicolon."""
    while code[at] not in "{;" and not CLAUSE.match(code, at):
        at = end_of_block(code, at) if code[at] in "([" else at + 1
    return at


def read_clauses(code, at):
    """The texts of the `ensures`, and the place of the body, or of the semicolon if there is none."""
    ensures = []
    while found := CLAUSE.match(code, at):
        at = end_of_block(code, found.end() - 1)
        if found[1] == "ensures":
            ensures.append(code[found.end() : at - 1])
    return ensures, at + len(code[at:]) - len(code[at:].lstrip())


def block_at(blocks, place):
    """The kind, the type and the trait of a function that is declared at a place."""
    for start, end, *block in blocks:
        if start < place < end:
            return block
    return "own", None, None


def blocks_of(code):
    """The `impl` and `trait` blocks of a file: where each begins and ends, the kind of its functions, its type, and the trait."""
    blocks = []
    for found in BLOCK.finditer(code):
        opened = code.index("{", found.end())
        head = re.sub(r"^\s*<[^{]*?>\s+(?=[A-Z])", "", code[found.end() : opened]).split(" where ")[0]
        trait, is_for, owner = head.rpartition(" for ")
        name = re.match(r"\s*(?:\w+::)*(\w+)", owner if is_for else head)[1]
        kind = "trait" if is_for else ("method" if found[2] == "trait" else "own")
        of = re.match(r"\s*(?:\w+::)*(\w+)", trait)[1] if is_for else None
        blocks.append((opened, end_of_block(code, opened), kind, name, of))
    return blocks


def functions_of_file(crate, path, code):
    """The functions of a file, in order."""
    blocks = blocks_of(code)
    return [Function(crate, path, code, found, block_at(blocks, found.start())) for found in FUNCTION.finditer(code)]


def declared_names(code):
    """The names of the types and functions that a file declares for others."""
    return {found[1] for found in NAMED_TYPE.finditer(code)} | {found[3] for found in FUNCTION.finditer(code) if found[1] == "pub "}


def names_given(code):
    """What `lib.rt` gives on by `pub use`: the module and the name, each time."""
    for found in USE.finditer(code):
        path, _, names = "".join(re.sub(r"\s+as\s+\w+", "", found[1]).split()).rpartition("::")
        if "{" in found[1]:
            path, _, names = "".join(found[1].split()).partition("::{")
        for name in names.rstrip("},").split(","):
            yield re.sub(r"^(crate|self)::", "", path), name


def public_names(codes):
    """For each file of a crate, the names declared in it that can be reached from outside: in `lib.rt` or in a `pub mod` all of them,
    elsewhere those that `lib.rt` gives on."""
    root = codes.get("src/lib.rt", "")
    given = [(module, name) for module, name in names_given(root)] + [(module, "*") for module in PUBLIC_MODULE.findall(root)]
    public = {path: set() for path in codes}
    for module, name in given:
        path = f"src/{module.replace('::', '/')}.rt"
        public.get(path, set()).update(declared_names(codes.get(path, "")) if name == "*" else {name})
    public["src/lib.rt"] = declared_names(root)
    return public


def crate_names():
    """The crates without those of tests, as `crates.txt` has them."""
    with open(os.path.join(ROOT, "crates.txt"), encoding="utf-8") as file:
        names = [line.split(":")[0] for line in file if ":" in line and not line.startswith("#")]
    return [name for name in names if name not in TESTS]


def texts_of(crate, folder, ending):
    """The files of a folder of a crate: the text of each by its path in the crate."""
    base = os.path.join(ROOT, "crates", crate)
    texts = {}
    for place, _, names in sorted(os.walk(os.path.join(base, folder))):
        for name in sorted(name for name in names if name.endswith(ending)):
            with open(os.path.join(place, name), encoding="utf-8") as file:
                texts[os.path.relpath(os.path.join(place, name), base)] = file.read()
    return texts


def functions_of(crate):
    """The functions of a crate, each with whether it is public: reachable from outside by its own name, or by that of its type."""
    codes = {path: blanked(text) for path, text in texts_of(crate, "src", ".rt").items()}
    public = public_names(codes)
    reachable = set().union(*public.values())
    found = [function for path, code in codes.items() for function in functions_of_file(crate, path, code)]
    for function in found:
        by_name = function.owner in reachable if function.owner else function.name in public[function.path]
        is_open = function.seen == "pub " if function.kind == "own" else function.kind == "method"
        function.is_public = by_name and is_open
    return found
