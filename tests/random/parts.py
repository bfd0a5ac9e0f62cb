"""The parts of an input that tasks have: their lines, and where they are cut."""


def lines_of(data, part):
    """The lines of a part, each with its place."""
    at, end = part
    while at < end:
        stop = data.find(b"\n", at, end)
        stop = end if stop < 0 else stop
        yield at, data[at:stop]
        at = stop + 1


def cuts_of(data, part, count):
    """A part in so many cuts, each from a line start to a line start."""
    start, end = part

    def point(i):
        if i in (0, count):
            return (start, end)[i == count]
        place = start + i * (end - start) // count
        while place < end and place > 0 and data[place - 1] != 10:
            place += 1
        return place

    return [(point(i), point(i + 1)) for i in range(count)]
