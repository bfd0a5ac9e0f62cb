"""The formatted text of a job, by the tokens and comments of any text of it: what `nursery fmt` is compared with."""

import re

TOKEN = re.compile(r'"(?:\\x[0-9a-f]{2}|\\["\\]|[^"\\])*"|\w+|[{};]')
PIECE = re.compile(TOKEN.pattern + r"|#[^\r\n]*|[\r\n]")
COLUMNS = 80


def formatted(text):
    """Formats a job text: its first line, and then a line for each step, with two spaces for each block around it. A block that is empty or holds
    one step without a block is in one line if it has no comment and ends at column 80 or before. Comments stay where they are: at the end of a
    line, or on lines of their own."""
    first, _, rest = text.partition("\n")
    layout = Layout(*pieces_of(rest))
    layout.put("")
    layout.put_words()
    layout.put_block(0)
    return f"{first}\n{''.join(layout.out)}{layout.comments_text(len(layout.tokens), 0)}\n"


def pieces_of(rest):
    """The tokens, and by the number of tokens before them the comments, each with whether it has a line of its own."""
    tokens, comments, alone = [], {}, True
    for piece in PIECE.findall(rest):
        if piece in "\r\n":
            alone = True
        elif piece.startswith("#"):
            comments.setdefault(len(tokens), []).append((alone, piece))
        else:
            tokens.append(piece)
            alone = False
    return tokens, comments


class Layout:
    """Lays tokens out, one after the other."""

    def __init__(self, tokens, comments):
        self.tokens, self.comments = tokens, comments
        self.at = 0
        # the level of the step in whose line the next token is, and where the token before it would end if there were no comments
        self.level, self.column = 0, 0
        self.out = []

    def next(self):
        return self.tokens[self.at] if self.at < len(self.tokens) else None

    def comments_text(self, at, level):
        return "".join(("\n" + "  " * level if alone else " ") + text for alone, text in self.comments.get(at, []))

    def put(self, gap):
        """Puts the next token after a gap: a text without a newline, or the level of its line."""
        token, new_line = self.next(), isinstance(gap, int)
        inside = gap + (token == "}") if new_line else self.level + 1
        self.level = gap if new_line else self.level
        self.column = len(token) + (2 * gap if new_line else self.column + len(gap))
        if self.at in self.comments and self.at == 0:
            self.out.append("".join(text + "\n" for _, text in self.comments[0]))
        elif self.at in self.comments:
            self.out.append(self.comments_text(self.at, inside) + "\n" + "  " * (gap if new_line else inside))
        else:
            self.out.append("\n" + "  " * gap if new_line else gap)
        self.out.append(token)
        self.at += 1

    def put_words(self):
        """Puts the other words of a head."""
        while self.next() not in ("{", ";", "}", None):
            self.put(" ")

    def put_block(self, level):
        """Puts a block of a step at a level: in the same line, or its steps in lines of their own."""
        short = self.short_block()
        if short:
            for gap in short:
                self.put(gap)
            return
        self.put(" ")
        while self.next() != "}":
            self.put_step(level + 1)
        self.put(level)

    def put_step(self, level):
        self.put(level)
        self.put_words()
        if self.next() == ";":
            self.put("")
            return
        self.put_block(level)
        while self.next() in ("except", "finally"):
            self.put_words()
            self.put_block(level)

    def short_block(self):
        """The gaps before the tokens of the block in one line, if it may be in one line."""
        end = self.at + 1
        while self.tokens[end] not in ("{", ";", "}"):
            end += 1
        if self.tokens[end] == "}" and end == self.at + 1:
            gaps = [" ", ""]
        elif self.tokens[end] == ";" and self.tokens[end + 1] == "}":
            gaps = [" "] * (end - self.at) + ["", " "]
        else:
            return None
        long = sum(map(len, gaps)) + sum(map(len, self.tokens[self.at : self.at + len(gaps)]))
        has_comment = any(at in self.comments for at in range(self.at + 1, self.at + len(gaps)))
        return None if has_comment or self.column + long > COLUMNS else gaps
