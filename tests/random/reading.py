"""Reads a job text as the nested tuples of steps that jobs.py makes."""

import re

from formats import PIECE

ESCAPE = re.compile(r"\\(?:x([0-9a-f]{2})|(.))")


def feed_of(content):
    """The job text and the input of a feed."""
    text, _, data = content.partition(b"\n%input\n")
    return text.decode("ascii"), data


def string_of(token):
    """What a string denotes, a character for each byte."""
    return ESCAPE.sub(lambda unit: chr(int(unit[1], 16)) if unit[1] else unit[2], token[1:-1])


class Reader:
    """Reads a job that is known to be one: its text without the first line."""

    def __init__(self, text):
        pieces = [piece for piece in PIECE.findall(text) if not piece.isspace() and not piece.startswith("#")]
        self.tokens = pieces[::-1]

    def word(self):
        return self.tokens.pop()

    def has(self, *words):
        """Whether the next token is one of these words, which is then taken."""
        return bool(self.tokens) and self.tokens[-1] in words and bool(self.word())

    def job(self):
        """The name of the job, and its steps."""
        self.word()
        return self.word(), self.block()

    def block(self):
        steps = []
        self.word()
        while not self.has("}"):
            steps.append(self.step())
        return steps

    def step(self):
        kind = self.word()
        if kind == "scope":
            name = self.word()
            deadline = (self.word(), int(self.word())) if self.tokens[-1] in ("after", "at") else None
            return kind, name, deadline, self.has("shield"), self.has("fail"), self.block()
        if kind == "nursery":
            name = self.word()
            after = int(self.word()) if self.has("after") else None
            return kind, name, after, self.has("shield"), self.block()
        if kind == "start":
            return kind, self.word(), int(self.word()) if self.has("over") else None, self.block()
        if kind == "repeat":
            over = self.has("over")
            return "repeat over" if over else kind, int(self.word()), self.block()
        if kind in ("event", "acquire", "receive"):
            return kind, self.word(), self.block()
        if kind in ("limiter", "channel"):
            return kind, self.word(), int(self.word()), self.block()
        if kind == "try":
            body = self.block()
            handler = (self.word(), self.block()) if self.has("except") else None
            return kind, body, handler, self.block() if self.has("finally") else None
        return kind, *self.values()

    def values(self):
        """The names, numbers and strings of a step, up to its semicolon."""
        while not self.has(";"):
            token = self.word()
            yield string_of(token) if token.startswith('"') else int(token) if token.isdigit() else token
