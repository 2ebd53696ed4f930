"""What a program's threads did, as a script and a transcript that `./ftpy check` judges."""
from . import _rezunkai
from .ops import BEGIN, BEGIN2, D_ITEMS, END, FORMS, L_ITEMS, NEXT, QUIESCE, S_ITEMS

LETTERS = "dls"  # dict, list, set
WORDS = ("dict", "list", "set")
(DONE, VALUE, PAIR, TRUTH, COUNT, DICT, LIST, SET, STOP, ENTERED, KEPT, SUSPENDED, RAISED) = range(13)
EXCEPTIONS = {1: "KeyError", 2: "IndexError", 3: "ValueError", 4: "RuntimeError size", 5: "RuntimeError keys",
              7: "MemoryError over", 8: "MemoryError heap"}


def datum(value):
    """A key or a value as a script has it. Raises ValueError for a string that a script can't have."""
    if not isinstance(value, str):
        return str(value)
    escaped = value.replace("\\", "\\\\").replace('"', '\\"').replace("\n", "\\n").replace("\t", "\\t")
    if any(ord(c) < 32 or ord(c) == 127 for c in escaped) or len(value.encode()) > 255:
        raise ValueError(f"a script has no string {value!r}: control characters, or more than 255 bytes")
    return f'"{escaped}"'


def items_text(kind, items):
    """The text of what a whole container has."""
    if kind == 0:
        return "{" + ", ".join(f"{datum(k)}: {datum(v)}" for k, v in items) + "}"
    inner = ", ".join(map(datum, items))
    return f"[{inner}]" if kind == 1 else f"{{{inner}}}" if items else "set()"


class Row:
    """One call: what was asked, what was answered, and its place in the history."""

    def __init__(self, row, index, name_of):
        (self.thread, op, container, other, key, value, self.at, end, tag, raised, reply_key, reply_value, count, self.stamp,
         self.wrote, self.waited, items) = row
        self.index = index
        self.call = self._call(op, container, other, key, value, end, name_of)
        self.reply = self._reply(tag, raised, reply_key, reply_value, count, items)

    def _call(self, op, container, other, key, value, end, name_of):
        if op == NEXT:
            return f"next c{other}"
        if op == END:
            return "end"
        if op == QUIESCE:
            return "quiesce"
        if op in (BEGIN, BEGIN2):
            return " ".join(["begin", name_of(container)] + [name_of(other)] * (op == BEGIN2))
        word, takes = FORMS[op]
        words = {"k": lambda: datum(key), "v": lambda: datum(value), "i": lambda: str(self.at), "e": lambda: str(end),
                 "o": lambda: name_of(other), "c": lambda: f"c{other}"}
        return " ".join([word, name_of(container)] + [words[take]() for take in takes])

    @staticmethod
    def _reply(tag, raised, key, value, count, items):
        if tag == RAISED:
            return f"MemoryError {count}" if raised == 6 else EXCEPTIONS[raised]
        if tag in (DICT, LIST, SET):
            return items_text(tag - DICT, items)
        return {DONE: "ok", VALUE: datum(value) if tag == VALUE else "", PAIR: f"{datum(key)}: {datum(value)}" if tag == PAIR else "",
                TRUTH: str(bool(count)), COUNT: str(count), STOP: "StopIteration", ENTERED: "entered", KEPT: "kept",
                SUSPENDED: f"suspended {count}"}[tag]

    def place(self):
        """Entries stand by stamp, a read before the write of that number, then by thread and index."""
        return self.stamp, self.wrote, self.thread, self.index

    def line(self):
        kind = "w" if self.wrote else "r"
        waited = f" waited T{self.waited - 1}" if self.waited else ""
        return f"T{self.thread}.{self.index} {kind}{self.stamp} {self.call} = {self.reply}{waited}"


class Record:
    """Every call since record(). text() is the script, a line ---, and the transcript: what `./ftpy check` reads."""

    def __init__(self, sizes):
        self._sizes = sizes
        self._rows = _rezunkai.record()

    def _kind(self, number):
        dicts, lists = self._sizes["dicts"], self._sizes["lists"]
        return 0 if number < dicts else 1 if number < dicts + lists else 2

    def _name(self, number):
        return f"{LETTERS[self._kind(number)]}{number}"

    def text(self):
        """The text for check. No other thread may be in a call. Raises ValueError for strings that a script can't have."""
        given = self._rows[:]
        made = {}
        rows = []
        for row in given:
            index = made[row[0]] = made.get(row[0], 0) + 1
            rows.append(Row(row, index, self._name))
        numbers = range(self._sizes["dicts"] + self._sizes["lists"] + self._sizes["sets"])
        lines = [f"{WORDS[self._kind(n)]} {self._name(n)}" for n in numbers]
        lines += [f"tables {n + 3} {count}" for n, count in enumerate(self._sizes["tables"])]
        lines.append(f"heap {self._sizes['heap']}")
        for thread in range(max(made, default=-1) + 1):
            lines.append(f"thread T{thread}")
            lines += [row.call for row in rows if row.thread == thread]
        lines.append("---")
        lines += [row.line() for row in sorted(rows, key=Row.place)]
        for n in numbers:
            items = _rezunkai.state(self._kind(n), n)
            lines.append(f"{self._name(n)} = {items_text(self._kind(n), items)}")
        del self._rows[len(given):]  # reading the state made calls that belong to no thread
        return "\n".join(lines) + "\n"

    def write(self, path):
        """Writes the text to a file."""
        text = self.text()
        with open(path, "w", encoding="utf-8") as file:
            file.write(text)


def record(*, dicts=4, lists=4, sets=4, threads=64, heap=4096):
    """Opens the engine as open() does, and keeps every call that any thread makes from now on. It comes before the first
    container is made: a judge needs all calls."""
    tables = (64, 64, 64, 64, 32, 32, 16, 8, 4, 4, 2, 2, 1, 1)
    made = Record({"dicts": dicts, "lists": lists, "sets": sets, "tables": tables, "heap": heap})
    _rezunkai.open(dicts, lists, sets, threads, tables, heap, False)
    return made
