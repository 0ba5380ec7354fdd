#!/usr/bin/env python3
"""The rows of a report in the ways that a flag asks for, made of those that the program writes.

It is called by scotty-rows, with the program's path in front of the words, and with the standard library alone. A fault's
line goes to standard error, and the exit codes are the program's. docs/ROWS.md says what each column is.
"""
import contextlib
import os
import re
import signal
import subprocess
import sys

COLUMNS = ["shard", "window", "start", "end", "number", "value", "sum", "count", "key", "state"]
DROPPED = ["shard", "entry", "source", "kind", "time", "value", "key"]
FORMER = ["former_number", "former_value", "former_sum", "former_count"]
NUMBERS = {"shard", "window", "start", "end", "number", "value", "sum", "count", "entry", "source", "time", *FORMER}
READ = re.compile(rb"b [0-9]+ [0-9]+( [0-9]+)*\n")


class Fault(Exception):
    """Why there are no rows: an exit code, and the fault's line."""

    def __init__(self, code, line):
        super().__init__(line)
        self.code = code


def usage(why):
    print(f"scotty-rows: {why}", file=sys.stderr)
    return Fault(1, "fault usage")


class Words:
    """What is asked for."""

    def __init__(self, words):
        self.json = self.state = self.dropped = self.ended = self.big_text = self.safe = False
        self.parts = self.since = False
        self.key = self.names = self.mean = self.iso = None
        self.reports = []
        words = list(words)
        while words:
            self.take(words.pop(0), words)
        self.check()

    def take(self, word, words):
        name = word[2:].replace("-", "_")
        if word == "--":
            self.reports += words
            words.clear()
        elif word in ("--json", "--state", "--dropped", "--ended", "--big-text", "--safe", "--parts", "--since"):
            setattr(self, name, True)
        elif word in ("--key", "--names", "--mean", "--iso"):
            if not words:
                raise usage(f"{word} needs a word behind it")
            setattr(self, name, words.pop(0))
        elif word.startswith("-") and word != "-":
            raise usage(f"`{word}` is no flag")
        else:
            self.reports.append(word)

    def check(self):
        if self.since and (self.parts or self.dropped):
            raise usage("--since has neither --parts nor --dropped beside it")
        if self.ended and not self.since:
            raise usage("--ended belongs to --since")
        if self.big_text and not self.json:
            raise usage("--big-text belongs to --json")
        if self.dropped and (self.names or self.mean or self.iso):
            raise usage("--dropped has records, which have no window: --names, --mean and --iso have no place there")
        if self.iso and not self.names:
            raise usage("--iso needs --names: the ranks of event windows are no times, and only the definitions tell them")
        if self.iso not in (None, "s", "ms", "us"):
            raise usage(f"--iso is s, ms or us, and not `{self.iso}`")
        if self.mean is not None and not (re.fullmatch("[0-9]{1,2}", self.mean) and int(self.mean) <= 18):
            raise usage(f"--mean is a number from 0 to 18, and not `{self.mean}`")
        if not self.parts and not self.since and len(self.reports) == 2 and self.key is None:
            self.key = self.reports.pop()
        if self.key == "":
            raise usage("a key isn't empty")
        wanted = 2 if self.since else max(1, len(self.reports)) if self.parts else 1
        if len(self.reports) != wanted:
            raise usage(f"there are {len(self.reports)} reports, and the flags call for {wanted}")


class Report:
    """A report that is read once, line by line, and handed to the program as far as its end.

    Beside the program's rows it has what these don't tell: the places whose rows were told behind the first end of a
    source in their shard's journal, the records that were dropped, and how many shards there are.
    """

    def __init__(self, program, name, key, wants_dropped=False):
        self.shards = 0
        self.late = set()
        self.dropped = []
        self.lines = 0
        self.wants_dropped = wants_dropped
        try:
            source = open(name, "rb")
        except OSError:
            raise Fault(3, "fault open report") from None
        with source:
            words = [program, "/dev/stdin"] + ([key] if key is not None else [])
            self.child = subprocess.Popen(words, stdin=subprocess.PIPE, stdout=subprocess.PIPE)
            with contextlib.suppress(BrokenPipeError), self.child.stdin as sink:
                self.feed(source, sink)

    def feed(self, source, sink):
        """Hands lines on as far as the first line `end`, and looks at what stands behind that."""
        entry, entries, closed = b"", 0, False
        try:
            for line in source:
                self.lines += 1
                sink.write(line)
                kind = line[:1]
                if kind == b"j":
                    entry = line
                    entries += 1
                    if line.endswith(b" e\n") and line.count(b" ") == 2:
                        closed = True
                elif kind == b"+":
                    if closed:
                        words = line[:-1].split(b" ", 6)
                        self.late.add((self.shards - 1, *words[1:4], words[-1]))
                elif kind == b"x":
                    if self.wants_dropped:
                        self.dropped.append((self.shards - 1, entries, entry))
                elif kind == b"s":
                    self.shards += 1
                    entries, closed = 0, False
                elif line == b"end\n":
                    self.look_behind(source)
                    return
        except OSError as error:
            if isinstance(error, BrokenPipeError):
                raise
            self.child.kill()
            raise Fault(5, "fault read report") from None

    def look_behind(self, source):
        """Behind the end the reads of a watch may stand, and their own end."""
        reads, whole = 0, True
        for line in source:
            self.lines += 1
            if (whole and reads) or not (READ.fullmatch(line) or (reads and line == b"end\n")):
                raise self.refused(self.lines)
            reads, whole = reads + 1, line == b"end\n"
        if not whole:
            raise self.refused(self.lines + 1)

    def refused(self, line):
        self.child.kill()
        return Fault(9, f"fault line {line}")

    def rows(self):
        """The program's rows, as lists of the columns, with the state of each; keys are bytes, as latin-1 has them."""
        with self.child.stdout as told:
            header = told.readline()
            if header.startswith(b"fault "):
                self.child.wait()
                raise Fault(self.child.returncode, header[:-1].decode())
            for line in told:
                row = parsed(line)
                place = (int(row[0]), row[1].encode(), row[2].encode(), row[3].encode(), row[8].encode("latin-1"))
                row[9] = "ended" if place in self.late else "complete"
                yield row
        if self.child.wait() != 0:
            raise Fault(self.child.returncode, "fault memory" if self.child.returncode == 7 else "fault rows")

    def dropped_records(self):
        """The records under which the report says that they were dropped."""
        for shard, number, line in self.dropped:
            words = line[:-1].decode("latin-1").split(" ", 5)
            if words[2] == "t":
                yield [str(shard), str(number), words[1], "t", words[3], words[4], words[5]]
            else:
                words = line[:-1].decode("latin-1").split(" ", 4)
                yield [str(shard), str(number), words[1], "m", words[3], "", words[4]]


def parsed(line):
    """The fields of a line of the program: the key alone may be quoted."""
    text = line[:-1].decode("latin-1")
    front = text.split(",", 8)
    key, state = front[8].rsplit(",", 1)
    if key.startswith('"') and key.endswith('"') and len(key) > 1:
        key = key[1:-1].replace('""', '"')
    return [*front[:8], key, state]


# ---- what is made of a row
def rounded(total, count, decimals):
    """The quotient with so many decimals, half away from zero."""
    size = (2 * abs(total) * 10**decimals + count) // (2 * count)
    sign = "-" if total < 0 and size else ""
    if not decimals:
        return f"{sign}{size}"
    return f"{sign}{size // 10**decimals}.{size % 10**decimals:0{decimals}}"


def iso(time, unit):
    """A time as ISO 8601 in UTC, by the calendar of Gregory; a year beyond 9999 has a plus in front."""
    scale, digits = {"s": (1, 0), "ms": (1000, 3), "us": (10**6, 6)}[unit]
    seconds, part = divmod(time, scale)
    days, second = divmod(seconds, 86400)
    # Days since 0000-03-01, in eras of 400 years, whose years begin in March.
    era, day = divmod(days + 719468, 146097)
    year = (day - day // 1460 + day // 36524 - day // 146096) // 365
    day -= 365 * year + year // 4 - year // 100
    month = (5 * day + 2) // 153
    day -= (153 * month + 2) // 5 - 1
    month, carry = (month + 3, 0) if month < 10 else (month - 9, 1)
    year += 400 * era + carry
    front = f"{year:04}" if year <= 9999 else f"+{year}"
    behind = f".{part:0{digits}}" if digits else ""
    return f"{front}-{month:02}-{day:02}T{second // 3600:02}:{second // 60 % 60:02}:{second % 60:02}{behind}Z"


def windows_of(name):
    """The kind and the function of each window of definitions."""
    try:
        import tomllib
    except ImportError:
        print("scotty-rows: --names needs Python 3.11 or later", file=sys.stderr)
        raise Fault(70, "fault python") from None
    try:
        with open(name, "rb") as file:
            read = tomllib.load(file)
    except OSError:
        raise Fault(3, "fault open defs") from None
    except (tomllib.TOMLDecodeError, UnicodeDecodeError):
        raise Fault(2, "fault defs toml") from None
    kinds = {"tumbling", "sliding", "session", "marks", "events"}
    funcs = {"count", "sum", "min", "max", "mean", "first", "last", "rises", "trace"}
    windows = read.get("window")
    if not isinstance(windows, list) or not windows:
        raise Fault(2, "fault defs shape top")
    for place, window in enumerate(windows):
        if not isinstance(window, dict) or window.get("kind") not in kinds or window.get("func") not in funcs:
            raise Fault(2, f"fault defs shape {place}")
    return [(window["kind"], window["func"]) for window in windows]


class Shape:
    """The columns that are asked for, and how a row is written in them."""

    def __init__(self, words, columns):
        self.words = words
        self.windows = windows_of(words.names) if words.names else None
        self.columns = columns + (["kind", "func"] if self.windows else [])
        self.risky = 0

    def finish(self, row):
        """Fills in a row, given by the names of its columns."""
        if self.windows is not None:
            self.name(row)
        for front in ("", "former_"):
            self.divide(row, front)
        if self.words.iso and row["kind"] != "events":
            for name in ("start", "end"):
                if row[name] != "end":
                    row[name] = iso(int(row[name]), self.words.iso)
        if row["key"][0] in "=+-@":
            self.risky += 1
            if self.words.safe:
                row["key"] = "'" + row["key"]
        return row

    def name(self, row):
        window = int(row["window"])
        if window >= len(self.windows):
            raise Fault(2, f"fault defs window {window}")
        row["kind"], row["func"] = self.windows[window]
        if (row["func"] == "mean") != (row["value"] == ""):
            raise Fault(2, f"fault defs func {window}")
        for front in ("", "former_"):
            if row["func"] in ("sum", "count") and row.get(front + "value"):
                row[front + row["func"]] = row[front + "value"]

    def divide(self, row, front):
        if self.words.mean is not None and row.get(front + "sum") and not row[front + "value"]:
            row[front + "value"] = rounded(int(row[front + "sum"]), int(row[front + "count"]), int(self.words.mean))

    def written(self, row):
        if self.words.json:
            return "{" + ",".join(self.member(name, row[name]) for name in self.columns if self.is_told(name, row)) + "}\n"
        return ",".join(quoted(row[name]) for name in self.columns) + "\n"

    @staticmethod
    def is_told(name, row):
        return row[name] != "" or name not in NUMBERS

    def member(self, name, text):
        if name in NUMBERS:
            if name == "end" and text == "end":
                return '"end":null'
            if re.fullmatch(r"-?[0-9]+(\.[0-9]+)?", text):
                far = self.words.big_text and not -(2**63) <= int(text.split(".")[0]) < 2**63
                return f'"{name}":"{text}"' if far else f'"{name}":{text}'
        escaped = text.replace("\\", "\\\\").replace('"', '\\"')
        return f'"{name}":"{escaped}"'


def quoted(text):
    return '"' + text.replace('"', '""') + '"' if "," in text or '"' in text else text


# ---- what is asked for
def standing(program, words):
    """The rows that stand."""
    for place, name in enumerate(words.reports):
        report = Report(program, name, words.key)
        for row in report.rows():
            if words.parts:
                row[0] = str(place)
            yield dict(zip(COLUMNS, row))
        if words.parts and report.shards != 1:
            print(f"scotty-rows: `{name}` has {report.shards} shards, and --parts takes reports of one", file=sys.stderr)
            raise Fault(9, f"fault report {place}")


def dropped(program, words):
    """The records that were dropped, once the report was accepted."""
    for place, name in enumerate(words.reports):
        report = Report(program, name, None, wants_dropped=True)
        for _ in report.rows():
            pass
        if words.parts and report.shards != 1:
            raise Fault(9, f"fault report {place}")
        for record in report.dropped_records():
            if words.parts:
                record[0] = str(place)
            if words.key is None or record[6].encode("latin-1") == os.fsencode(words.key):
                yield dict(zip(DROPPED, record))


def since(program, words):
    """What to book since an older report: what is taken back, and then what is new or corrected."""
    old = {}
    for row in Report(program, words.reports[0], words.key).rows():
        if words.ended or row[9] == "complete":
            old[(*row[1:4], row[8])] = row
    changes = []
    for row in Report(program, words.reports[1], words.key).rows():
        if words.ended or row[9] == "complete":
            former = old.pop((*row[1:4], row[8]), None)
            if former is None:
                changes.append(("new", row, ["", "", "", ""]))
            elif former[4:8] != row[4:8]:
                changes.append(("corrected", row, former[4:8]))
    for row in old.values():
        yield {"change": "back", **dict(zip(COLUMNS, row)), **dict(zip(FORMER, row[4:8])), **dict.fromkeys(COLUMNS[4:8], "")}
    for change, row, former in changes:
        yield {"change": change, **dict(zip(COLUMNS, row)), **dict(zip(FORMER, former))}


def write(words, program):
    if words.dropped:
        columns, rows = DROPPED, dropped(program, words)
    elif words.since:
        columns, rows = ["change", *COLUMNS, *FORMER], since(program, words)
    else:
        columns, rows = COLUMNS, standing(program, words)
    shape = Shape(words, columns)
    out = sys.stdout
    wrote = False
    for row in rows:
        line = shape.written(shape.finish(row) if not words.dropped else row)
        if not wrote and not words.json:
            out.write(",".join(shape.columns) + "\n")
        wrote = True
        out.write(line)
    if not wrote and not words.json:
        out.write(",".join(shape.columns) + "\n")
    out.flush()
    if shape.risky and not words.safe:
        print(
            f"scotty-rows: {shape.risky} rows have a key that a spreadsheet takes for a formula; --safe puts an apostrophe there",
            file=sys.stderr,
        )


def main():
    signal.signal(signal.SIGPIPE, signal.SIG_IGN)
    sys.stdout.reconfigure(encoding="latin-1", newline="\n")
    try:
        write(Words(sys.argv[2:]), sys.argv[1])
    except Fault as fault:
        print(fault, file=sys.stderr)
        code = fault.code
    except MemoryError:
        print("fault memory", file=sys.stderr)
        code = 7
    except BrokenPipeError:
        code = 141
    except OSError:
        code = 8
    else:
        return 0
    # What was written stays so, and what wasn't isn't tried again.
    sys.stdout = None
    os._exit(code)


if __name__ == "__main__":
    sys.exit(main())
