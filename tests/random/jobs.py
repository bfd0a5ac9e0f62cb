"""Random jobs of all formats: nested lists of steps, each a tuple whose first part is its keyword, and their text."""

import random
import re

from formats import TOKEN

COMMENTS = [" # a note\n", "\n# on its own line: { \" } ; job\n", "#\n", "# one\n\n\t# and another # one\n  "]
NEEDLES = ["er", "ok", "absent", "l"]
NAMES = ["A", "B", "C"]
ERRORS = ["EndOfChannel", "ClosedResource"]
# Keywords that may be names where no step may begin.
WORDS = ["event", "set", "wait"]
WORDS_OF_OBJECTS = ["limiter", "acquire", "channel", "send", "receive", "close"]


class Jobs:
    """Random jobs of one format: nested lists of steps, each a tuple whose first part is its keyword. Those of format 3 have events, unless
    the jobs are wanted without, and start tasks in loops. Limiters and channels are made on demand."""

    def __init__(self, seed, format_=None, objects=False):
        self.random = random.Random(seed)
        self.format = format_ or self.random.choice([1, 2])
        self.has_objects = objects
        self.words = self.random.sample(WORDS + WORDS_OF_OBJECTS, 3) if objects else WORDS
        self.errors = NAMES + ["TooSlow"] + (ERRORS if objects else [])
        self.names = 0
        self.events = []  # those around the step that is made next
        self.objects = []  # the limiters and channels around it, each with its kind

    def job(self):
        self.names, self.events = 0, []
        if self.has_objects:
            return self.job_with_objects()
        return self.block(5, [], 4)

    def job_with_objects(self):
        """Most often with an end, since many a task waits for a limiter or channel forever."""
        around = [self.name("all")] if self.random.random() < 0.7 else []
        body = [self.object(4, around), *self.block(2, around, 2)]
        self.random.shuffle(body)
        return [("scope", name, ("after", self.random.randint(5, 40)), False, False, body) for name in around] or body

    def name(self, kind):
        self.names += 1
        if self.format >= 3 and self.names <= 3 and self.random.random() < 0.05:
            return self.words[self.names - 1]
        return f"{kind}{self.names}"

    def block(self, depth, around, most):
        return [self.step(depth, around) for _ in range(self.random.randint(1, most))]

    def step(self, depth, around):
        if self.objects and self.random.random() < 0.5:
            return self.use(depth, around)
        if self.has_objects and depth > 0 and self.random.random() < 0.15:
            return self.object(depth, around)
        pick = self.random.random()
        if depth == 0 or pick < 0.3:
            return self.leaf(around)
        if self.format >= 2 and pick < 0.4:
            if self.format >= 3 and self.random.random() < 0.3:
                return ("repeat over", self.random.randint(1, 3), self.block(depth - 1, around, 3))
            return ("repeat", self.random.randint(0, 3), self.block(depth - 1, around, 3))
        if pick < 0.5:
            return self.scope(depth, around)
        if pick < 0.75:
            return self.nursery(depth, around)
        if self.format >= 3 and pick < 0.85:
            return self.event(depth, around)
        return self.handled(depth, around)

    def event(self, depth, around):
        """An event, most often with tasks that use it."""
        name = self.name("e")
        self.events.append(name)
        body = [self.nursery(depth - 1, around)] if depth > 1 and self.random.random() < 0.7 else self.block(depth - 1, around, 3)
        self.events.pop()
        return ("event", name, body)

    def object(self, depth, around):
        """A limiter or channel, most often with tasks that use it."""
        r = self.random
        kind = r.choice(["limiter", "channel"])
        name, size = self.name(kind[0]), r.randint(1, 2) if kind == "limiter" else r.randint(0, 2)
        self.objects.append((kind, name))
        body = [self.nursery(depth - 1, around)] if depth > 1 and r.random() < 0.8 else self.block(depth - 1, around, 3)
        self.objects.pop()
        return (kind, name, size, body)

    def use(self, depth, around):
        """Asks something of a limiter or channel, or closes a channel."""
        r = self.random
        kind, name = r.choice(self.objects)
        if kind == "channel" and r.random() < 0.6:
            return ("send" if r.random() < 0.8 else "close", name)
        if depth > 0 and r.random() < 0.5:
            body = self.block(depth - 1, around, 2)
        else:
            body = [self.leaf(around)] if r.random() < 0.5 else []
        if kind == "limiter":
            return ("acquire", name, body)
        receive = ("receive", name, body)
        if r.random() < 0.2:
            return ("try", [("repeat", r.randint(2, 4), [receive])], ("EndOfChannel", []), None)
        return receive

    def leaf(self, around):
        r = self.random
        if self.events and r.random() < 0.5:
            return (r.choice(["set", "wait", "wait"]), r.choice(self.events))
        if self.objects and r.random() < 0.5:
            return ("sleep", r.randint(0, 9))
        pick = r.random()
        if pick < 0.50:
            return ("sleep", r.randint(0, 5))
        if pick < 0.55:
            return ("checkpoint",)
        if pick < 0.58:
            return ("forever",)
        if pick < 0.62:
            return ("pace", r.randint(1, 4)) if self.format < 3 else ("sleep", r.randint(0, 1))
        if pick < 0.66:
            return ("find", r.choice(NEEDLES))
        if pick < 0.69:
            return r.choice([("head", r.randint(0, 2)), ("longest",)])
        if pick < 0.72:
            return ("need", r.choice(NEEDLES), r.choice(NAMES))
        if pick < 0.90 or not around:
            return ("raise", r.choice(NAMES))
        return ("cancel", r.choice(around))

    def scope(self, depth, around):
        r = self.random
        name = self.name("s")
        deadline = r.choice([None, None, ("after", r.randint(0, 6)), ("after", r.randint(0, 6)), ("at", r.randint(0, 9))])
        body = self.block(depth - 1, around + [name], 3)
        return ("scope", name, deadline, r.random() < 0.3, r.random() < 0.3, body)

    def nursery(self, depth, around):
        r = self.random
        name = self.name("n")
        after = r.choice([None, r.randint(0, 6)]) if self.format >= 2 else None
        shield = self.format >= 2 and r.random() < 0.3
        return ("nursery", name, after, shield, self.items(depth - 1, around + [name], 5))

    def items(self, depth, around, most):
        """The steps and starts of a nursery, or of a loop in it that starts tasks."""
        r = self.random
        items = []
        for _ in range(r.randint(1, most)):
            if self.format >= 3 and depth > 0 and r.random() < 0.15:
                items.append(("repeat", r.randint(0, 3), self.items(depth - 1, around, 2)))
            elif r.random() < 0.7:
                over = r.choice([None, None, None, 1, 2, 3])
                items.append(("start", self.name("t"), over, self.block(depth, around, 3)))
            else:
                items.append(self.step(depth, around))
        return items

    def handled(self, depth, around):
        r = self.random
        body = self.block(depth - 1, around, 3)
        handler = (r.choice(self.errors), self.block(depth - 1, around, 2)) if r.random() < 0.7 else None
        cleanup = self.block(depth - 1, around, 2) if handler is None or r.random() < 0.5 else None
        return ("try", body, handler, cleanup)


def random_job(seed, format_=None, objects=False):
    """The steps of a random job, and its text: of format 1 or 2, unless another one is given. Those with limiters and channels are of format 3."""
    jobs = Jobs(seed, format_, objects)
    steps = jobs.job()
    return steps, f"trio-job {jobs.format}\njob main " + text_of_block(steps)


def job_of_any_format(seed):
    """The steps of a random job of format 1, 2 or 3, and its text. Every other text of format 3 has comments."""
    steps, text = random_job(seed, 3 if seed % 3 == 0 else None)
    return steps, with_comments(text, random.Random(seed)) if seed % 6 == 0 else text


def with_comments(text, dice):
    """A job text of format 3, with comments between some of its tokens, before the first and after the last."""
    first, _, rest = text.partition("\n")
    pieces = re.split(f"({TOKEN.pattern})", rest)
    return first + "\n" + "".join(dice.choice(COMMENTS) if dice.random() < 0.15 and not re.fullmatch(TOKEN, it) else it for it in pieces)


def text_of_block(steps):
    return "{ " + "".join(text_of(step) + " " for step in steps) + "}"


def text_of(step):
    match step:
        case ("scope", name, deadline, shield, fail, body):
            words = ["scope", name]
            if deadline:
                words += [deadline[0], str(deadline[1])]
            words += ["shield"] * shield + ["fail"] * fail
            return " ".join(words) + " " + text_of_block(body)
        case ("nursery", name, after, shield, items):
            return f"nursery {name} " + (f"after {after} " if after is not None else "") + "shield " * shield + text_of_block(items)
        case ("repeat" | "repeat over" as head, count, body):
            return f"{head} {count} " + text_of_block(body)
        case ("limiter" | "channel" as head, name, size, body):
            return f"{head} {name} {size} " + text_of_block(body)
        case ("event" | "acquire" | "receive" as head, name, body):
            return f"{head} {name} " + text_of_block(body)
        case ("start", name, over, body):
            return f"start {name} " + (f"over {over} " if over else "") + text_of_block(body)
        case ("try", body, handler, cleanup):
            text = "try " + text_of_block(body)
            if handler is not None:
                text += f" except {handler[0]} " + text_of_block(handler[1])
            if cleanup is not None:
                text += " finally " + text_of_block(cleanup)
            return text
        case ("find", needle):
            return f'find "{needle}";'
        case ("need", needle, name):
            return f'need "{needle}" {name};'
        case _:
            return " ".join(str(word) for word in step) + ";"
