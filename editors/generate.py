#!/usr/bin/env python3
"""Writes the files of editors/ that colour job texts, made from the table of keywords in crates/job_syntax/src/keyword.rt.

    python3 editors/generate.py            # writes them
    python3 editors/generate.py --check    # compares: status 1 where a file is another than it would write

They are a TextMate grammar (nursery.tmLanguage.json) and a syntax file for Vim with its file detection (vim/). Both have the same rules.
The regular expressions of the grammar use only what Oniguruma and Python's `re` both have, so that tests/pages/editors.py can apply them.
It wants Python 3.10 or later.
"""

import json
import os
import re
import sys
from typing import NamedTuple

HERE = os.path.dirname(os.path.abspath(__file__))
SOURCE = os.path.join(HERE, "..", "crates", "job_syntax", "src", "keyword.rt")


class Group(NamedTuple):
    """Words that are shown alike: the scope that TextMate gives them, the group that Vim does, what that is linked to, and the words."""

    scope: str
    group: str
    link: str
    words: list


# Each keyword is in exactly one of these groups.
GROUPS = [
    Group("keyword.control.block", "Block", "Structure", "job nursery start scope event limiter channel repeat".split()),
    Group("keyword.control.exception", "Handler", "Exception", "try except finally".split()),
    Group("keyword.other.wait", "Wait", "Statement", "sleep checkpoint forever pace wait acquire send receive".split()),
    Group("keyword.other.lines", "Lines", "Statement", "find head longest need".split()),
    Group("keyword.other.signal", "Signal", "Statement", "raise cancel set close".split()),
    Group("keyword.other.modifier", "Modifier", "StorageClass", "after at shield fail over".split()),
]

# The names in a job text: those that are given, those that are used, and those of exceptions, each with the keywords that they follow.
NAMES = [
    Group("entity.name.function", "Name", "Function", "job nursery start scope event limiter channel".split()),
    Group("variable.other", "Target", "Identifier", "cancel set wait acquire send receive close".split()),
    Group("entity.name.type.exception", "Exception", "Type", "raise except need".split()),
]

# What else is linked in Vim.
LINKS = {
    "Format": "PreProc",
    "InputMark": "PreProc",
    "Comment": "Comment",
    "String": "String",
    "Escape": "SpecialChar",
    "Number": "Number",
    "Error": "Error",
    "Brace": "Delimiter",
    "Semicolon": "Delimiter",
}


class Wrong(Exception):
    """What was found, in one sentence."""


# ---- the table of keywords


def keywords_of(text):
    """The keywords of the source, and those of them that may also be names."""
    listed = re.search(r"^pub enum Keyword \{(.*?)^\}", text, re.M | re.S)
    variants = re.findall(r"^    (\w+),$", listed[1], re.M) if listed else []
    spelled = dict(re.findall(r'^ +Keyword::(\w+) => b"([a-z]+)",$', text, re.M))
    if not variants or set(variants) != set(spelled):
        raise Wrong("crates/job_syntax/src/keyword.rt does not have the table of keywords as it is read here")
    may_be_names = re.findall(r"^ +Keyword::(\w+) => true,$", text, re.M)
    return [spelled[it] for it in variants], [spelled[it] for it in may_be_names]


def check_tables(keywords):
    """Each keyword has to be in one group, each word of a group has to be a keyword, and names follow keywords, each at most one kind."""
    grouped = [word for group in GROUPS for word in group.words]
    for word in keywords:
        if grouped.count(word) != 1:
            raise Wrong(f"the keyword `{word}` is in {grouped.count(word)} groups of GROUPS, and not in one")
    naming = [word for group in NAMES for word in group.words]
    for word in grouped + naming:
        if word not in keywords:
            raise Wrong(f"`{word}` is in GROUPS or NAMES, and is no keyword of crates/job_syntax/src/keyword.rt")
    for word in naming:
        if naming.count(word) > 1:
            raise Wrong(f"the keyword `{word}` is in {naming.count(word)} lists of NAMES")


def heads():
    """The keywords that a name follows, by their group and the kind of the name."""
    pairs = [(group, names, [word for word in group.words if word in names.words]) for group in GROUPS for names in NAMES]
    return [pair for pair in pairs if pair[2]]


def alone():
    """The other keywords, by their group."""
    naming = {word for names in NAMES for word in names.words}
    pairs = [(group, [word for word in group.words if word not in naming]) for group in GROUPS]
    return [pair for pair in pairs if pair[1]]


def reserved(keywords, may_be_names):
    """The keywords that are never names, so that what has its name, or lacks it, ends before them."""
    return [word for word in keywords if word not in may_be_names]


# ---- the TextMate grammar


def any_of(words):
    return rf"\b(?:{'|'.join(words)})\b"


def scoped(scope):
    return f"{scope}.nursery"


def rule(scope, pattern):
    return {"name": scoped(scope), "match": pattern}


def included(*names):
    return [{"include": f"#{name}"} for name in names]


def input_rule():
    """All that follows a line `%input`."""
    return {
        "begin": "^%input$",
        "beginCaptures": {"0": {"name": scoped("meta.preprocessor.input")}},
        "end": "(?!)",
        "contentName": scoped("meta.input"),
    }


def string_rule():
    """A string, which ends with its line if it has no end."""
    escapes = [
        rule("constant.character.escape", r'\\(?:["\\]|x[0-9a-f]{2})'),
        rule("invalid.illegal.escape", r"\\.?"),
    ]
    return {"name": scoped("string.quoted.double"), "begin": '"', "end": '"|$', "patterns": escapes}


def head_rule(group, names, words, ends):
    """The keyword before a name, and what follows it up to a mark or another keyword: the name, comments, a string or a number."""
    return {
        "begin": any_of(words),
        "beginCaptures": {"0": {"name": scoped(group.scope)}},
        "end": rf"(?=[{{}};]|^%input$|{any_of(ends)})",
        "patterns": included("comment", "string", "number") + [rule(names.scope, r"\b[A-Za-z][A-Za-z0-9_]*\b")],
    }


def grammar_of(keywords, may_be_names):
    """The grammar, as a JSON document."""
    ends = reserved(keywords, may_be_names)
    numbers = [
        rule("invalid.illegal.number", r"\b(?:0[0-9]+|[0-9]+[A-Za-z_][A-Za-z0-9_]*)\b"),
        rule("constant.numeric.integer", r"\b[0-9]+\b"),
    ]
    marks = [
        rule("punctuation.section.block.begin", r"\{"),
        rule("punctuation.section.block.end", r"\}"),
        rule("punctuation.terminator", ";"),
    ]
    return {
        "comment": "Made by editors/generate.py from crates/job_syntax/src/keyword.rt.",
        "name": "nursery",
        "scopeName": "source.nursery",
        "fileTypes": ["feed"],
        "firstLineMatch": "^trio-job [123]$",
        "patterns": included("format", "input", "comment", "string", "number", "head", "keyword", "mark"),
        "repository": {
            "format": rule("meta.preprocessor.format", "^trio-job [123]$"),
            "input": input_rule(),
            "comment": rule("comment.line.number-sign", "#.*$"),
            "string": string_rule(),
            "number": {"patterns": numbers},
            "head": {"patterns": [head_rule(*head, ends) for head in heads()]},
            "keyword": {"patterns": [rule(group.scope, any_of(words)) for group, words in alone()]},
            "mark": {"patterns": marks},
        },
    }


# ---- the files for Vim

VIM_FRONT = r"""" Vim syntax file
" Language: job texts of nursery, and feeds: job texts with their inputs
" Made by editors/generate.py from crates/job_syntax/src/keyword.rt.

if exists("b:current_syntax")
  finish
endif

syntax case match
syntax iskeyword @,48-57,_
syntax sync fromstart

syntax match nurseryFormat "\%^trio-job [123]$"
syntax match nurseryComment "#.*$"
syntax match nurseryEscapeError "\\.\?" contained
syntax match nurseryEscape "\\\%([\"\\]\|x[0-9a-f]\{2}\)" contained
syntax region nurseryString start=+"+ end=+"\|$+ contains=nurseryEscape,nurseryEscapeError
syntax match nurseryNumber "\<\d\+\>"
syntax match nurseryError "\<\%(0\d\+\|\d\+\h\w*\)\>"
syntax match nurseryBrace "[{}]"
syntax match nurserySemicolon ";"
"""

VIM_HEADS = """
" From the keyword before a name up to the first mark or other keyword.
"""

VIM_INPUT = r"""
" What follows a line %input is the input, and is shown as plain text.
syntax region nurseryInput matchgroup=nurseryInputMark start="^%input$" matchgroup=NONE end="\%$"
"""

FTDETECT = """" Made by editors/generate.py. A file NAME.feed, and each file that begins with the first line of a job text.
autocmd BufRead,BufNewFile *.feed setfiletype nursery
autocmd BufRead * if getline(1) =~# '^trio-job [123]$' | setfiletype nursery | endif
"""


def vim_any_of(words):
    return r"\<\%(" + r"\|".join(words) + r"\)\>"


def vim_head(number, head, end):
    """The same as `head_rule`."""
    group, names, words = head
    start = f'matchgroup=nursery{group.group} start="{vim_any_of(words)}"'
    inside = f"nurseryComment,nurseryString,nurseryNumber,nurseryError,nursery{names.group}"
    return f'syntax region nurseryHead{number} {start} matchgroup=NONE end="{end}" contains={inside}\n'


def vim_syntax_of(keywords, may_be_names):
    """The syntax file."""
    end = rf"\%([{{}};]\|^%input$\|{vim_any_of(reserved(keywords, may_be_names))}\)\@="
    out = [VIM_FRONT, "\n"]
    out += [f"syntax keyword nursery{group.group} {' '.join(words)}\n" for group, words in alone()]
    out += [f'syntax match nursery{names.group} "\\<\\a\\w*\\>" contained\n' for names in NAMES]
    out += [VIM_HEADS]
    out += [vim_head(number, head, end) for number, head in enumerate(heads(), 1)]
    out += [VIM_INPUT, "\n"]
    links = {**{group.group: group.link for group in GROUPS + NAMES}, **LINKS, "EscapeError": "Error"}
    out += [f"highlight default link nursery{group} {link}\n" for group, link in links.items()]
    out += ['\nlet b:current_syntax = "nursery"\n']
    return "".join(out)


# ---- the files


def files_of(source):
    """Each file that is made, by its path here."""
    keywords, may_be_names = keywords_of(source)
    check_tables(keywords)
    return {
        "nursery.tmLanguage.json": json.dumps(grammar_of(keywords, may_be_names), indent=2) + "\n",
        "vim/syntax/nursery.vim": vim_syntax_of(keywords, may_be_names),
        "vim/ftdetect/nursery.vim": FTDETECT,
    }


def content_of(path):
    """The content of a file, or nothing if there is no such file."""
    if not os.path.exists(path):
        return None
    with open(path, encoding="utf-8", newline="") as file:
        return file.read()


def main():
    if sys.argv[1:] not in ([], ["--check"]):
        raise Wrong("it takes no words but --check")
    files = files_of(content_of(SOURCE))
    for name, wanted in files.items():
        path = os.path.join(HERE, name)
        if sys.argv[1:]:
            if content_of(path) != wanted:
                raise Wrong(f"editors/{name} is another than is made from the table of keywords: python3 editors/generate.py")
            continue
        os.makedirs(os.path.dirname(path), exist_ok=True)
        with open(path, "w", encoding="ascii", newline="") as file:
            file.write(wanted)
    print(f"generate.py: {', '.join(files)} {'are as they are made' if sys.argv[1:] else 'were written'}")


if __name__ == "__main__":
    try:
        main()
    except Wrong as wrong:
        sys.exit(f"generate.py: {wrong}")
