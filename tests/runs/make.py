#!/usr/bin/env python3
"""Writes the inputs NAME.in of the runs and, from a model of its own, what the program has to print, NAME.out.

The model is written from document 01 and from document 02, "Take the links" and "No thirtieth of February"; it shares nothing with the
program."""
import os
import re

MOST_PAIRS = 512
MOST_LINKS = 64

# ---- document 01, "The E line": name, first column, last column, required, low, high ("as the column holds" where wide)
FIELDS = [
    ("year", 14, 17, True, -999, 6070),
    ("month", 18, 19, True, 1, 12),
    ("day", 20, 21, True, 1, 31),
    ("hour", 22, 23, True, 0, 23),
    ("minute", 24, 25, True, 0, 59),
    ("second", 26, 28, True, 0, 599),
    ("latitude", 29, 35, True, -900000, 900000),
    ("longitude", 36, 43, True, -1800000, 1800000),
    ("depth", 44, 47, False, -999, 9999),
    ("magnitude", 48, 49, False, -9, 99),
    ("stations", 50, 52, False, 0, 999),
    ("phases", 53, 55, False, 0, 999),
    ("nearest", 56, 59, False, 0, 9999),
    ("rms", 60, 63, False, 0, 9999),
    ("horizontal", 64, 67, False, 0, 9999),
    ("vertical", 68, 71, False, 0, 9999),
    ("gap", 72, 73, False, 0, 99),
    ("letter", 74, 74, None, 0, 0),
    ("magnitude_stations", 75, 76, False, 0, 99),
    ("magnitude_error", 77, 78, False, 0, 99),
    ("method", 79, 79, None, 0, 0),
]


def check_character(line):
    """A 16-bit sum: rotate right by one bit, then add the byte; 36 plus the sum modulo 91."""
    total = 0
    for byte in line:
        total = (total >> 1 | (total & 1) << 15) + byte & 0xFFFF
    return 36 + total % 91


def days(year, month):
    """How many days a month has in the Gregorian calendar, carried over all years; year 0 is a leap year."""
    leap = year % 400 == 0 or (year % 4 == 0 and year % 100 != 0)
    return (31, 29 if leap else 28, 31, 30, 31, 30, 31, 31, 30, 31, 30, 31)[month - 1]


# ---- reading: (number, column), or None for an acceptable line


def first_barred(line, names_end=13):
    """The lowest column of a byte that is no text, or a bracket in the columns from identifier to version."""
    for column, byte in enumerate(line, 1):
        if not 32 <= byte <= 126 or (3 <= column <= names_end and byte in b"[]"):
            return column
    return 0


def refused_event(line):
    if len(line) != 80:
        return (1, 0)
    barred = first_barred(line[:79])
    if barred:
        return (2, barred)
    if line[79] != check_character(line[:79]):
        return (9, 80)
    numbers = {}
    for name, first, last, required, low, high in FIELDS:
        if required is None:
            continue
        if name == "day":
            high = days(numbers["year"], numbers["month"])
        cell = line[first - 1 : last]
        if not cell.strip(b" "):
            if required:
                return (5, first)
        elif not re.fullmatch(rb" *-?[0-9]+", cell):
            return (6, first)
        elif not low <= int(cell) <= high:
            return (7, first)
        else:
            numbers[name] = int(cell)
    return None


def refused_delete(line):
    if not 13 <= len(line) <= 80:
        return (1, 0)
    barred = first_barred(line)
    return (2, barred) if barred else None


# Identifier, source and version; a blank; type, address and text, parted by one blank each.
LINK = re.compile(rb"LI(?P<identifier>.{8})(?P<source>..)(?P<version>..) (?P<type>[^ ]{1,16}) [^ ]+ (?P<text>[^ ].*)")


def refused_link(line):
    if not 20 <= len(line) <= 255:
        return (1, 0)
    barred = first_barred(line, names_end=14)
    if barred:
        return (2, barred)
    return None if LINK.fullmatch(line) else (6, 15)


def refused(line):
    if len(line) < 2:
        return (1, 0)
    if line[:2] == b"E ":
        return refused_event(line)
    if line[:2] == b"DE":
        return refused_delete(line)
    if line[:2] == b"LI":
        return refused_link(line)
    return (3, 1)


# ---- the catalogue: the held line and the deleted version of each pair, the link of each source, identifier and type


class Catalogue:
    def __init__(self):
        self.held = {}
        self.deleted = {}
        self.links = {}

    def full(self, pair):
        named = set(self.held) | set(self.deleted)
        return pair not in named and len(named) == MOST_PAIRS

    def take(self, line):
        no = refused(line)
        if no:
            return no
        if line[:2] == b"LI":
            return (self.take_link(line), 0)
        pair, version = line[10:12] + line[2:10], line[12]
        if line[:2] == b"E ":
            return (self.take_event(pair, version, line), 0)
        if version == 32:
            return (self.take_blank(pair), 0)
        return (self.take_delete(pair, version), 0)

    def take_event(self, pair, version, line):
        if self.full(pair):
            return 12
        if pair in self.deleted and self.deleted[pair] >= version:
            return 23
        if pair not in self.held:
            self.held[pair] = line
            return 20
        if self.held[pair][12] > version:
            return 23
        if self.held[pair] == line:
            return 22
        self.held[pair] = line
        return 21

    def take_delete(self, pair, version):
        if self.full(pair):
            return 12
        if pair in self.deleted and self.deleted[pair] >= version:
            return 23
        self.deleted[pair] = version
        if pair in self.held and self.held[pair][12] <= version:
            del self.held[pair]
            return 24
        return 25

    def take_link(self, line):
        link = LINK.fullmatch(line)
        triple = link["source"], link["identifier"], link["type"]
        before = self.links.get(triple)
        if before is None:
            if len(self.links) == MOST_LINKS:
                return 16
            self.links[triple] = line
            return 20
        if LINK.fullmatch(before)["version"] > link["version"]:
            return 23
        if before == line:
            return 22
        self.links[triple] = line
        return 21

    def take_blank(self, pair):
        if pair not in self.held:
            return 26
        self.deleted[pair] = self.held.pop(pair)[12]
        return 24


# ---- the program


def lines_of(data):
    """Ended at a newline or the end of input; a final newline adds no line."""
    lines = data.split(b"\n")
    return lines[:-1] if lines[-1] == b"" else lines


def printed(data):
    room, out, answers = Catalogue(), [b"line answer column"], []
    for number, line in enumerate(lines_of(data), 1):
        answer = room.take(line[:1024])
        answers.append(answer[0])
        out.append(b"%d %d %d" % (number, *answer))
    out.append(b"held %d" % len(room.held))
    out += [room.held[pair] for pair in sorted(room.held)]
    out.append(b"deleted %d" % len(room.deleted))
    out += [pair + bytes([room.deleted[pair]]) for pair in sorted(room.deleted)]
    lines = [room.links[triple] for triple in sorted(room.links)]
    shown = [line for line in lines if LINK.fullmatch(line)["text"] not in (b"delete", b"delete:")]
    out.append(b"links %d" % len(shown))
    out += shown
    return b"".join(line + b"\n" for line in out), answers


# ---- lines


def event(identifier, source, version, check=True, **cells):
    """An E line; a field given as text stands as it is, one given as a number is right-aligned."""
    values = dict(year=1999, month=4, day=2, hour=17, minute=5, second=105, latitude=339860, longitude=-1169945,
                  depth=17, magnitude=31, stations=60, phases=0, nearest=14, rms=18, horizontal=12, vertical=9,
                  gap=43, letter="C", magnitude_stations=0, magnitude_error=2, method="h")
    values.update(cells)
    line = "E " + identifier.ljust(8) + source + version
    for name, first, last, *_ in FIELDS:
        cell = str(values[name]).rjust(last - first + 1)
        assert len(cell) == last - first + 1, (name, cell)
        line += cell
    line = line.encode("latin-1")
    return line + bytes([check_character(line) if check else 33])


def delete(identifier, source, version, text=""):
    return ("DE" + identifier.ljust(8) + source + version + text).encode("latin-1")


def link(identifier, source, version, kind, address, text):
    """An LI line; the version has two bytes."""
    return ("LI" + identifier.ljust(8) + source + version + " " + kind + " " + address + " " + text).encode("latin-1")


def with_byte(line, column, byte):
    return line[: column - 1] + bytes([byte]) + line[column:]


def changed(line, column, byte):
    """One byte changed, and the check character made right again."""
    line = with_byte(line, column, byte)
    return line[:79] + bytes([check_character(line[:79])])


def answers():
    a = event("09082344", "CI", "2")
    lines = [
        # length, type, barred bytes
        b"", b"E", b"D", b" ", b"E ", a[:79], a + b" ", b"DE", delete("", "CI", "1")[:12],
        delete("09082344", "CI", "2", "x" * 68), a[:2],
        b"hello", b"LI 006729 NC01 fm http://a b", b"  ", b"e ", b"E\t", b"ED", b"De", b"\xff\xff",
        changed(a, 20, 9), changed(a, 3, 91), changed(a, 11, 93), changed(a, 13, 91), changed(a, 79, 127),
        a[:79] + b"\r", delete("0908[344", "CI", "2"), delete("09082344", "CI", "]"),
        delete("09082344", "CI", "2", " a\tb"), delete("09082344", "CI", "2", "\r"), delete("09082344", "CI", "2", " [x]\x7f"),
        # the check character
        event("09082344", "CI", "2", check=False), a[:79] + bytes([a[79] - 1 if a[79] > 36 else 126]), a[:79] + b"\x80",
        a[:30] + b"1" + a[31:],
    ]
    # fields left to right: blank where required, form, range
    for name, first, last, required, low, high in FIELDS:
        if required is None:
            continue
        width = last - first + 1
        lines.append(event("blank", "CI", "1", **{name: " " * width}))
        lines.append(event("form", "CI", "1", **{name: "1".rjust(width - 1) + " "}))
        lines.append(event("form", "CI", "1", **{name: "+1".rjust(width)}))
        lines.append(event("form", "CI", "1", **{name: "-".rjust(width)}))
        for value in (low - 1, low, high, high + 1):
            if len(str(value)) <= width:
                lines.append(event(f"{value}", "NC", "1", **{name: value}))
    lines += [
        event("minus", "NC", "1", hour="-0", stations="-00", latitude="-000000", depth="   -"),
        event("minus", "NC", "1", hour="-0", stations="-00", latitude="-000000", depth="  -1"),
        event("two", "NC", "1", year="    ", month=13), event("two", "NC", "1", month=13, day=" x"),
        changed(a, 74, 91), changed(a, 79, 93),
        # taking E: stored, repeated, replaced by the same version and by a higher one, outdated
        a, a, event("09082344", "CI", "2", magnitude=33), event("09082344", "CI", "3", magnitude=34), a,
        event("09082344", "CI", "3", magnitude=34), event("09082344", "NC", "1"), event("09082344", "CH", "1"),
        event("09082343", "CI", " "), event("09082343", "CI", " "), event("09082343", "CI", "!"),
        # taking DE: below the held version, at it, again, and lower
        delete("09082344", "CI", "2", " too late"), delete("09082344", "CI", "2"), delete("09082344", "CI", "1"),
        event("09082344", "CI", "2"), event("09082344", "CI", "4"), delete("09082344", "CI", "4", " EVENT CANCELLED:  (LKH)"),
        delete("09082344", "CI", "4"), event("09082344", "CI", "4"), event("09082344", "CI", "5"),
        # a delete before its event
        delete("meav", "US", "3", " early"), event("meav", "US", "2"), event("meav", "US", "3"), event("meav", "US", "4"),
        # blank version: nothing held, held, again; the deleted version is the held one
        delete("00001234", "AK", " "), event("00001234", "AK", "A"), delete("00001234", "AK", " ", " all versions"),
        delete("00001234", "AK", " "), event("00001234", "AK", "A"), event("00001234", "AK", "B"), delete("00001234", "AK", "A"),
        delete("09082343", "CI", " "), event("09082343", "CI", " "),
        delete("", "  ", " "), event("", "  ", " "), delete("", "  ", " "),
        delete("13bytes", "UW", "1"), delete("80bytes", "UW", "1", "y" * 67),
    ]
    return b"".join(line + b"\n" for line in lines)


def pairs():
    lines = []
    # 500 pairs by events, last first so that each goes in before the others; 12 by deletes
    for i in reversed(range(500)):
        lines.append(event(f"{40000000 + 7 * i}", ("CI", "NC", "US", "AK")[i % 4], "1", second=i))
    for i in range(12):
        lines.append(delete(f"gone{i:02}", "UW", "5", " deleted before it came"))
    lines += [
        event("new", "UW", "1"), delete("new", "UW", "1"), delete("new", "UW", " "), delete("gone00", "UW", " "),
        event("gone00", "UW", "5"), event("gone00", "UW", "6"), event("40000000", "CI", "2"),
        event("40000000", "CI", "3", magnitude=-5), delete("40000000", "CI", "3"), event("new", "UW", "1"),
        delete("40000007", "NC", " "), event("new", "NC", "1"), b"E new", event("new", "UW", "1", check=False), b"hello",
    ]
    # more of each, past 64 KiB of input
    for i in range(300):
        lines.append(event(f"{40000000 + 7 * i}", ("CI", "NC", "US", "AK")[i % 4], "2", second=i + 1))
        if i % 3 == 0:
            lines.append(delete(f"{40000000 + 7 * (i + 1)}", ("CI", "NC", "US", "AK")[(i + 1) % 4], "1", " superseded"))
        if i % 50 == 0:
            lines.append(event(f"new{i}", "UW", "1"))
    return b"".join(line + b"\n" for line in lines)


def refused_links():
    """LI lines at the edges of their rules: lengths, barred bytes, parts."""
    a = link(" 006729", "NC", "01", "fm", "http://whatever/whoknows", "This is a test")
    short = link("short", "NC", "01", "a", "b", "c")
    yield from (b"LI", b"L", b"LX" + a[2:], b"li" + a[2:], short[:19], short, a[:13], a[:14], a[:15], a[:19])
    for n in (234, 235, 236, 237, 238, 1100):
        yield link(f"long{n}", "NC", "01", "a", "b", "c" * n)
        yield link(f"wide{n}", "NC", "01", "a", "b" * n, "c")
    for n in (15, 16, 17, 18, 40):
        yield link("type", "NC", "01", "t" * n, "http://a/b", "text")
    # a bracket in each of the columns 2 to 20, alone and with a barred byte further on; other barred bytes
    for column in range(2, 21):
        yield with_byte(a, column, 91 if column % 2 else 93)
        yield with_byte(with_byte(a, 40, 9), column, 93)
    for column in (3, 12, 13, 14, 15, 16, 18, 19, 43, 44, len(a)):
        for byte in (9, 31, 127, 128, 255):
            yield with_byte(a, column, byte)
    yield a + b"\r"
    # parts: column 15, one blank too many or too few, nothing left
    names = a[:14]
    for rest in (b"_fm http://a text", b" fm http://a", b" fm http://a ", b" fm http://a  ", b" fm", b" fm   ", b"      ",
                 b"  fm http://a text", b" fm  http://a text", b" fm http://a  text", b" fm http://a text", b" fm http://a text ",
                 b" fm http://a a  b ", b" seventeen-letters http://a b", b" sixteen--letters http://a b", b"xfm http://a\x7ftext",
                 b"-" * 30):
        yield names + rest
        yield names + rest + b" and some more"


def links():
    a = link(" 006729", "NC", "01", "fm", "http://whatever/whoknows", "This is a test")

    def named(version, text, kind="fm"):
        return link(" 006729", "NC", version, kind, "http://whatever/whoknows", text)

    lines = [
        # stored, repeated, replaced by the same version and by a higher one, late
        a, a, named("01", "This is another test"), a, named("02", "Second"), a, named("02", "Second"), named("00", "late"),
        named("1 ", "by byte code 1 and blank is above 02"), named("02", "late"), named(" 9", "late"), named("~~", "the highest"),
        # texts of one version, of which one begins the other
        named("01", "page", "tour"), named("01", "page and more", "tour"), named("01", "page", "tour"), named("01", "page ", "tour"),
        # deleted, once more, and back
        named("01", "delete", "map"), named("01", "delete:", "map"), named("01", "delete:", "map"), named("00", "old", "map"),
        named("02", "back again", "map"), named("03", "delete", "map"),
        named("01", "delete", "shake"), named("01", "delete ", "felt"), named("01", "Delete", "felt2"), named("01", "delete: it", "felt3"),
        named("01", "deleted", "felt4"),
        # types of which one begins another; brackets and other bytes in them
        named("01", "x", "f"), named("01", "x", "fmx"), named("01", "x", "fm!"), named("01", "x", "fm~"), named("01", "x", "[fm]"),
        # E and DE lines of the same pair do not touch its links, nor links them
        event(" 006729", "NC", "2"), a, delete(" 006729", "NC", "1"), named("01", "while held", "tour"), delete(" 006729", "NC", " "),
        named("02", "still there", "tour"), event(" 006729", "NC", "2"), event(" 006729", "NC", "3"),
        delete(" 006729", "NC", "3"), named("01", "late", "tour"),
        link(" 006729", "CI", "01", "fm", "http://b", "another source"), link("006729", "NC", "01", "fm", "http://b", "another identifier"),
        link("", "  ", "  ", "!", "!", "!"),
    ]
    lines += refused_links()
    return b"".join(line + b"\n" for line in lines)


def triples():
    """More than 64 triples, last first so that each goes in before the others; then 512 pairs, and both again."""
    def one(i, version="05", text="more about it"):
        return link(f"{7000 + i // 3}", ("CI", "NC")[i % 2], version, ("a", "ab", "b")[i % 3], "http://a/b", text)

    lines = [one(i) for i in reversed(range(MOST_LINKS))]
    lines += [
        one(MOST_LINKS), one(MOST_LINKS), one(0), one(0, "04"), one(0, "06"), one(1, "05", "other"), one(2, "07", "delete"), one(2),
        one(2, "08"), one(3, "05", "delete"), one(4, "05", "delete:"), one(MOST_LINKS + 1, "99"), one(MOST_LINKS, "  ", "delete"),
        b"LI refused",
    ]
    for i in range(MOST_PAIRS):
        lines.append(event(f"{7000 + i}", "CI", "1", second=i) if i % 4 else delete(f"{7000 + i}", "CI", "1"))
    lines += [
        event("new", "UW", "1"), link("new", "UW", "01", "fm", "http://a", "b"), delete("new", "UW", "1"), one(5, "09"),
        one(5, "09"), one(5, "08"), one(MOST_LINKS), delete("new", "UW", " "), event("7001", "CI", "2"),
        one(MOST_LINKS - 1, "05", "z" * 200),
    ]
    return b"".join(line + b"\n" for line in lines)


def calendar():
    """Days that exist and days that do not; a refused one leaves what is held."""
    def dated(year, month, day, version="1", **cells):
        return event(f"{year:04}{month:02}{day:02}", "CI", version, year=year, month=month, day=day, **cells)

    def april(day, version):
        return event("april", "NC", version, day=day)

    lines = [dated(year, 2, 30) for year in (2023, 2024, 2000, 1900, 0, -1, -4, -100, -400)]
    lines += [dated(year, 2, 29) for year in (1900, 2000, 2024, 2023, 2100, 2400, 6068, 6070, 0, 1, 4, 100, 400)]
    lines += [dated(year, 2, 29) for year in (-1, -3, -4, -5, -96, -100, -104, -200, -300, -400, -800, -999)]
    lines += [dated(1999, 4, 31), dated(1999, 4, 30)]
    for month, day in enumerate((31, 28, 31, 30, 31, 30, 31, 31, 30, 31, 30, 31), 1):
        lines += [dated(2023, month, day), dated(2023, month, day + 1)]
    lines += [
        # blanks, minus and zeros: 29 February of the years 4, 0 and -4, and of 1, -1 and -100
        event("blanks", "NC", "1", year="   4", month=" 2", day=29), event("minus", "NC", "1", year="  -0", month=" 2", day=29),
        event("both", "NC", "1", year="  -4", month="02", day=29), event("blanks", "NC", "2", year="   1", month=" 2", day=29),
        event("minus", "NC", "2", year=" -01", month=" 2", day=29), event("both", "NC", "2", year="-100", month=" 2", day=29),
        event("first", "NC", "1", month=2, day=" 1"), event("first", "NC", "2", month=2, day=" 0"),
        event("first", "NC", "2", month=2, day="-1"),
        # refused by a column before the day's, by the day's, by the check character before all
        dated(2023, 13, 31), dated(6071, 2, 30), dated(2023, 2, 30, hour=24), dated(2023, 2, 28, hour=24), dated(2023, 2, 30, check=False),
        event("form", "NC", "1", month=2, day="3 "), event("blank", "NC", "1", month=2, day="  "),
        # a refused line replaces nothing, and a delete finds what was held before it
        april(30, "1"), april(31, "2"), april(30, "1"), april(29, "2"), april(31, "2"), april(31, "3"), delete("april", "NC", "2"),
        april(31, "4"), april(30, "3"),
    ]
    return b"".join(line + b"\n" for line in lines)


def last():
    return event("meav", "US", "3") + b"\n\n" + delete("09081845", "CI", "2", " EVENT CANCELLED:  (LKH)") + b"\n" + event("meav", "US", "4")


def long():
    a = event("09082344", "CI", "2")
    lines = [
        b"x" * 1023, b"x" * 1024, b"x" * 1025, b"hello" * 400, delete("09082344", "CI", "2", "y" * 3000),
        a, a + b" " * 945, a + b" " * 944, a + b" " * 943, b"E " + b"z" * 2000, event("09082344", "CI", "3"),
        b"\x00" * 5000, b"E", b"DE" + b"\x7f" * 140000, delete("09082344", "CI", "3"), b" " * 1500,
    ]
    return b"\n".join(lines)


def main():
    here = os.path.dirname(os.path.abspath(__file__))
    wanted = {"answers": {1, 2, 3, 5, 6, 7, 9, 20, 21, 22, 23, 24, 25, 26}, "pairs": {12, 26}, "links": {1, 2, 3, 6, 20, 21, 22, 23},
              "triples": {12, 16, 20, 21, 22, 23, 26}, "calendar": {5, 6, 7, 9, 20, 21, 22, 24}}
    runs = dict(empty=b"", answers=answers(), pairs=pairs(), last=last(), long=long(), links=links(), triples=triples(),
                calendar=calendar())
    for name, data in runs.items():
        out, numbers = printed(data)
        assert wanted.get(name, set()) <= set(numbers), (name, sorted(set(numbers)))
        for ending, content in ((".in", data), (".out", out)):
            with open(os.path.join(here, name + ending), "wb") as file:
                file.write(content)


main()
