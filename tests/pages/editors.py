#!/usr/bin/env python3
"""The files of editors/ are as editors/generate.py makes them, and colour each byte of a job text as what it is.

    python3 tests/pages/editors.py

It wants Python 3.10 or later. The feeds of examples/ and tests/, and some texts of its own, are split into tokens here, by the rules of
docs/FORMATS.md. Each byte of each keyword, name, number, string, comment and mark has to get the scope of its kind from the TextMate
grammar, whose patterns are applied here line by line, as an editor does it, and the group of its kind from Vim. Without a Vim that has
`+syntax` it says so, and tries only the grammar.
"""

import glob
import json
import os
import plistlib
import re
import shutil
import subprocess
import sys
import tempfile

ROOT = os.path.abspath(os.path.join(os.path.dirname(os.path.abspath(__file__)), "..", ".."))
EDITORS = os.path.join(ROOT, "editors")
sys.dont_write_bytecode = True
sys.path.insert(0, EDITORS)

from generate import GROUPS, NAMES  # noqa: E402

# The scope and the group of each kind of byte but keywords and names, which GROUPS and NAMES have.
KINDS = {
    "format": ("meta.preprocessor.format", "Format"),
    "comment": ("comment.line.number-sign", "Comment"),
    "number": ("constant.numeric.integer", "Number"),
    "string": ("string.quoted.double", "String"),
    "escape": ("constant.character.escape", "Escape"),
    "{": ("punctuation.section.block.begin", "Brace"),
    "}": ("punctuation.section.block.end", "Brace"),
    ";": ("punctuation.terminator", "Semicolon"),
    "mark of the input": ("meta.preprocessor.input", "InputMark"),
    "input": ("meta.input", "Input"),
}
PIECE = re.compile(
    r'(?P<blank>[ \t\r\n]+)|(?P<comment>#[^\r\n]*)|(?P<word>[A-Za-z][A-Za-z0-9_]*)|(?P<number>[0-9]+(?![A-Za-z_]))|'
    r'(?P<string>"(?:\\x[0-9a-f]{2}|\\["\\]|[ !#-\[\]-~])+")|(?P<mark>[{};])'
)
ESCAPE = re.compile(r'\\(?:x[0-9a-f]{2}|.)')
FEED = re.compile(r"(?P<first>trio-job [123])\n(?P<job>.*?)(?:^(?P<mark>%input)$(?P<input>.*))?", re.M | re.S)

# A job with each difficulty: names that are keywords elsewhere, comments and newlines anywhere, marks and keywords in strings and comments.
HARD = r"""trio-job 3
# job { sleep 1; } "
job event { # a "name"; sleep 5; }
  event set{set set;wait set;}
  event wait # { after 5
  {
    nursery scope_1 # the deadline is on the next line
      after 5 shield{
      start over_2 over 2{find "a \"sleep\" # } \\ \x00";need "#"  # the exception
        set;}
      repeat 3{start After{checkpoint;raise Sleep;}}repeat over 2{longest;}
      set # what
      wait;
      wait wait;
    }
  }
  limiter send 2{acquire send{receive limiter{close close;}}}
  channel # its places are on the next line
    limiter
      0 # none
  {send channel;receive acquire # {
    {acquire event{channel channel 10{}}}
  }
  try{raise wait;}except # what
    event{need"job {"raise_1;}finally{head 0;longest;pace 10;forever;}
  scope
    # the name
    sleep_1 at 7 shield fail{cancel sleep_1;}
}
# the end: %input
%input
job sleep { "x" # 5; }
%input
trio-job 3
"""
# Lines of a job that is not finished, or is wrong. What stands in «» is an error, no other word than a keyword is shown as one, the keyword
# `sleep` on the next line is seen, and the input after it all is plain text.
BROKEN = [
    "scope budget",
    "need",
    "cancel",
    "try {",
    'find "GET',
    'need "GET',
    'find "«\\q»";',
    "sleep «500ms»;",
    "sleep «007»;",
    "scope slow after «5s» {",
    "limiter pool «02» {",
    "channel work «2x»",
    "unsleep sleeper sleep_1 await waits reset sender closed limiters;",
]


class Wrong(Exception):
    """What was found, in one sentence."""


def content_of(*path):
    with open(os.path.join(ROOT, *path), encoding="latin-1", newline="") as file:
        return file.read()


# ---- what each byte is


def keywords():
    """All keywords, and those that are names where no step may begin."""
    source = content_of("crates", "job_syntax", "src", "keyword.rt")
    spelled = dict(re.findall(r'Keyword::(\w+) => b"(\w+)"', source))
    return set(spelled.values()), {spelled[it] for it in re.findall(r"Keyword::(\w+) => true", source)}


class Kinds:
    """The kind of each byte of a text, or None for a blank between tokens. The keyword `sleep` has the kind `keyword sleep`."""

    KEYWORDS, MAY_BE_NAMES = keywords()

    def __init__(self, name, text):
        self.name, self.text, self.kinds = name, text, []
        self.keyword = self.before = None
        found = FEED.fullmatch(text)
        self.put(found["first"], "format")
        self.put("\n", None)
        self.put_job(found["job"])
        self.put(found["mark"] or "", "mark of the input")
        self.put(found["input"] or "", "input")

    def put(self, text, kind):
        self.kinds += [kind] * len(text)

    def put_job(self, text):
        at = 0
        while at < len(text):
            piece = PIECE.match(text, at)
            if not piece:
                raise Wrong(f"{self.name}: no token is at {text[at : at + 20]!r}")
            kind, at = piece.lastgroup, piece.end()
            if kind == "string":
                self.put_string(piece[0])
            else:
                self.put(piece[0], self.kind_of(kind, piece[0]))
            if kind not in ("blank", "comment"):
                self.before = piece[0]

    def put_string(self, text):
        begin = len(self.kinds)
        self.put(text, "string")
        for escape in ESCAPE.finditer(text):
            for at in range(*escape.span()):
                self.kinds[begin + at] = "escape"

    def kind_of(self, kind, text):
        if kind == "word":
            return self.kind_of_word(text)
        return {"blank": None, "mark": text}.get(kind, kind)

    def kind_of_word(self, word):
        """A keyword that may be a name is one where a step may begin, which is after a mark."""
        if word in self.KEYWORDS and (word not in self.MAY_BE_NAMES or self.before in ("{", "}", ";")):
            self.keyword = word
            return f"keyword {word}"
        return f"name after {self.keyword}"

    def by_lines(self):
        """The bytes of each line, and their kinds."""
        at = 0
        for line in self.text.removesuffix("\n").split("\n"):
            yield line, self.kinds[at : at + len(line)]
            at += len(line) + 1


def kinds_with_words():
    """The scope and the group of each kind."""
    wanted = dict(KINDS)
    wanted.update({f"keyword {word}": (it.scope, it.group) for it in GROUPS for word in it.words})
    wanted.update({f"name after {word}": (it.scope, it.group) for it in NAMES for word in it.words})
    for kind, (scope, _) in wanted.items():
        if scope.startswith("keyword.") != kind.startswith("keyword "):
            raise Wrong(f"a {kind} has the scope {scope}")
    return wanted


# ---- the TextMate grammar


class Grammar:
    """A TextMate grammar, whose patterns are applied to one line after the other. It knows only what the grammar of editors/ uses."""

    KEYS = {"name", "match", "begin", "end", "beginCaptures", "contentName", "patterns"}

    def __init__(self, document):
        self.document, self.expressions = document, {}
        root = {"name": document["scopeName"], "patterns": document["patterns"]}
        self.root = {"rule": root, "scope": root["name"]}
        re.compile(document["firstLineMatch"])

    def rules(self, patterns):
        """The rules of some patterns, in order."""
        for it in patterns:
            if set(it) == {"include"}:
                it = self.document["repository"][it["include"].removeprefix("#")]
            if "match" in it or "begin" in it:
                if not set(it) <= self.KEYS or ("begin" in it) != ("end" in it) or set(it.get("beginCaptures", "0")) != {"0"}:
                    raise Wrong(f"the grammar has a rule with {', '.join(it)}, which is not known here")
                yield it
            else:
                yield from self.rules(it["patterns"])

    def search(self, expression, line, at):
        if expression not in self.expressions:
            self.expressions[expression] = re.compile(expression)
        return self.expressions[expression].search(line, at)

    def next(self, inside, line, at):
        """What is found first from a place on: its rule, or None for the end of what is around it. Of several, the first in order."""
        ways = [(None, inside["end"])] if "end" in inside else []
        ways += [(it, it.get("match", it.get("begin"))) for it in self.rules(inside.get("patterns", []))]
        found = [(match.start(), order, match, it) for order, (it, way) in enumerate(ways) if (match := self.search(way, line, at))]
        return min(found, key=lambda it: it[:2])[2:] if found else (None, None)

    def painted(self, stack, line):
        """The innermost scope of each byte of a line, after which the stack has the rules that are open."""
        scopes, at = [], 0
        while True:
            inside = stack[-1]
            match, it = self.next(inside["rule"], line, at)
            if match is None:
                return scopes + [inside["scope"]] * (len(line) - at)
            scopes += [inside["scope"]] * (match.start() - at)
            if it is None:
                stack.pop()
                scope = inside["rule"].get("name", stack[-1]["scope"])
            elif not match[0]:
                raise Wrong(f"the grammar finds nothing by {it}")
            elif "match" in it:
                scope = it["name"]
            else:
                scope = it.get("name", inside["scope"])
                stack.append({"rule": it, "scope": it.get("contentName", scope)})
                scope = it["beginCaptures"]["0"]["name"] if "beginCaptures" in it else scope
            scopes += [scope] * len(match[0])
            at = match.end()

    def compile_all(self):
        """Compiles each expression of the grammar, also those that no text needs."""
        left = [self.document]
        while left:
            it = left.pop()
            left += [value for value in (it.values() if isinstance(it, dict) else it) if isinstance(value, (dict, list))]
            for key in ("match", "begin", "end"):
                if isinstance(it, dict) and isinstance(it.get(key), str):
                    re.compile(it[key])

    def of_text(self, text):
        stack = [self.root]
        return [self.painted(stack, line) for line in text.removesuffix("\n").split("\n")]


def read_grammar():
    with open(os.path.join(EDITORS, "nursery.tmLanguage.json"), encoding="ascii") as file:
        document = json.load(file)
    if plistlib.loads(plistlib.dumps(document)) != document:
        raise Wrong("the grammar is another one as a property list")
    check_readme(document)
    grammar = Grammar(document)
    grammar.compile_all()
    return grammar


def check_readme(grammar):
    """The JSON documents that editors/README.md shows say of the grammar what is so."""
    blocks = re.findall(r"^    \{\n(?:    .*\n)+", content_of("editors", "README.md"), re.M)
    package, _ = map(json.loads, blocks)
    language, shown = package["contributes"]["languages"][0], package["contributes"]["grammars"][0]
    said = (language["extensions"], language["firstLine"], shown["scopeName"], shown["path"])
    if said != ([f".{it}" for it in grammar["fileTypes"]], grammar["firstLineMatch"], grammar["scopeName"], "./nursery.tmLanguage.json"):
        raise Wrong(f"editors/README.md says of the grammar {said}")


# ---- Vim

# Files of which the first line or the name alone says what they are, and one that is no job.
OTHER_FILES = {"new.feed": ("", "nursery"), "supervisor.job": ("trio-job 3\njob main {}\n", "nursery"), "plain.job": ("trio-job 4\n", "")}

VIM = """set encoding=latin1 fileformats=unix nomodeline
let &runtimepath = $EDITORS . '/vim,' . $VIMRUNTIME
filetype on
syntax on
for path in split(glob($TEXTS . '/*'), "\\n")
  execute 'edit' fnameescape(path)
  let seen = ['filetype ' . &filetype]
  for number in range(1, line('$'))
    let places = range(1, strlen(getline(number)))
    call add(seen, join(map(places, 'synIDattr(synID(number, v:val, 1), "name")'), ','))
  endfor
  call writefile(seen, path . '.seen')
endfor
qall!
"""


def has_vim():
    if shutil.which("vim") is None:
        return False
    version = subprocess.run(["vim", "--version"], capture_output=True, text=True, check=False).stdout
    return "+syntax" in version and "+eval" in version


def run_vim(files):
    """What Vim says of each of these files: its type, and line by line the group of each byte. One Vim reads all of them."""
    with tempfile.TemporaryDirectory() as folder, tempfile.NamedTemporaryFile("w", suffix=".vim") as script:
        script.write(VIM)
        script.flush()
        for name, text in files.items():
            with open(os.path.join(folder, name), "w", encoding="latin-1", newline="") as file:
                file.write(text)
        command = ["vim", "-N", "-u", "NONE", "-i", "NONE", "-n", "-es", "-S", script.name]
        around = {**os.environ, "EDITORS": EDITORS, "TEXTS": folder}
        ended = subprocess.run(command, stdin=subprocess.DEVNULL, capture_output=True, env=around, timeout=60, check=False)
        for name in files:
            path = os.path.join(folder, f"{name}.seen")
            if not os.path.exists(path):
                raise Wrong(f"Vim wrote nothing about {name}, and said {(ended.stdout + ended.stderr).decode(errors='replace')!r}")
            with open(path, encoding="ascii") as file:
                filetype, *lines = file.read().splitlines()
            yield name, filetype.removeprefix("filetype "), [line.split(",") if line else [] for line in lines]


def seen_by_vim(texts):
    """The group that each byte of each text has in Vim, line by line."""
    files = {f"{number:04}.feed": text for number, text in enumerate(texts)}
    found = run_vim({**files, **{name: text for name, (text, _) in OTHER_FILES.items()}})
    seen = []
    for name, filetype, lines in found:
        if filetype != OTHER_FILES.get(name, ("", "nursery"))[1]:
            raise Wrong(f"Vim says that {name} has the type {filetype!r}")
        if name in files:
            seen.append(lines)
    return seen


# ---- comparing


def compare(kinds, painted, wanted, by):
    """Each byte of a text has what its kind wants. Returns how many bytes there are to see."""
    seen = 0
    for number, ((line, line_kinds), shown) in enumerate(zip(kinds.by_lines(), painted, strict=True), 1):
        for at, kind in enumerate(line_kinds):
            if kind is not None and (kind not in wanted or shown[at] != wanted[kind]):
                found = f"{line[at]!r} of a {kind} as {shown[at] or 'nothing'}, and not as {wanted.get(kind)}"
                raise Wrong(f"{kinds.name}:{number}:{at + 1}: {by} shows {found}: {line}")
        seen += sum(kind is not None for kind in line_kinds)
    return seen


def broken_text(line):
    return "trio-job 3\njob main {\n" + line.replace("«", "").replace("»", "") + "\nsleep 1;\nscope unfinished\n%input\nsleep 5;\n"


def check_broken(line, painted, wanted, by):
    """What a line has that is an error, the words in it that are none, the keyword after it, and the input after a head without its end."""
    if painted[3][:5] != [wanted["keyword sleep"]] * 5 or set(painted[6]) != {wanted["input"]}:
        raise Wrong(f"{by} does not show a keyword or the input after: {line}")
    before, _, rest = line.partition("«")
    error, _, after = rest.partition("»")
    errors = [at for at, shown in enumerate(painted[2]) if shown.startswith("invalid.") or shown.endswith("Error")]
    if errors != list(range(len(before), len(before) + len(error))):
        raise Wrong(f"{by} shows the errors {[painted[2][at] for at in errors]} in: {line}")
    for word in re.finditer(r"\w+", before + error + after):
        for shown in painted[2][slice(*word.span())]:
            if shown in {wanted[kind] for kind in wanted if kind.startswith("keyword ")} and f"keyword {word[0]}" not in wanted:
                raise Wrong(f"{by} shows a part of {word[0]} as a keyword in: {line}")


def check_all(texts, painted, places, by):
    """What the bytes of the texts are shown as. `places` says which of the scope and the group it is, and how that is written."""
    place, written = places
    wanted = {kind: written(both[place]) for kind, both in kinds_with_words().items()}
    bytes_seen = sum(compare(kinds, shown, wanted, by) for kinds, shown in zip(texts, painted))
    for line, shown in zip(BROKEN, painted[len(texts) :], strict=True):
        check_broken(line, shown, wanted, by)
    print(f"editors.py: {by} shows each of {bytes_seen} bytes of {len(texts)} texts as what it is, and {len(BROKEN)} lines that are wrong")


def main():
    made = subprocess.run([sys.executable, os.path.join(EDITORS, "generate.py"), "--check"], capture_output=True, text=True, check=False)
    if made.returncode != 0:
        raise Wrong(f"{made.stdout}{made.stderr}".strip())
    paths = [path for folder in ("examples", "tests") for path in glob.glob(f"{folder}/**/*.feed", root_dir=ROOT, recursive=True)]
    if not any(path.startswith("examples") for path in paths):
        raise Wrong("there are no examples")
    texts = [Kinds(path, content_of(path)) for path in sorted(paths)] + [Kinds("HARD", HARD)]
    contents = [kinds.text for kinds in texts] + [broken_text(line) for line in BROKEN]
    grammar = read_grammar()
    check_all(texts, [grammar.of_text(text) for text in contents], (0, "{}.nursery".format), "the TextMate grammar")
    if not has_vim():
        print("editors.py: there is no Vim with +syntax, so its syntax file was not tried")
        return
    check_all(texts, seen_by_vim(contents), (1, "nursery{}".format), "Vim")


if __name__ == "__main__":
    try:
        main()
    except (Wrong, OSError, ValueError, re.error) as wrong:
        sys.exit(f"editors.py: {wrong}")
