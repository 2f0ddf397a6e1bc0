#!/usr/bin/env python3
"""Reads the folder of a dump from outside: its manifest, its files by their lengths and digests, and each item and event
in them, by the rules that the crates dump_manifest, dump_files and dump_format have, and in their order. The first harm
that is found is told with its file.
As a script it takes the folder of dumps and the name of a directory in it, and prints what the dump has; without the
second word it reads each dump that is there."""

import hashlib, os, re, sys
from dataclasses import dataclass, field

TEXT_LIMIT, COUNT_LIMIT, LAST_EVENT, LAST_NUMBER = 16777216, 2**31 - 1, 2**63 - 1, 2**64 - 1
PARTS_LIMIT, EVENTS_LIMIT = 64, 256
KINDS = [
    "CREATE_DATABASE", "ALTER_DATABASE", "DROP_DATABASE", "CREATE_TABLE", "ALTER_TABLE", "DROP_TABLE", "ADD_PARTITION", "ALTER_PARTITION", "DROP_PARTITION",
]


class Damaged(Exception):
    """A file of a dump has a harm: `absent`, `length`, `digest` or `grammar at N`."""

    def __init__(self, file, harm):
        super().__init__(f"{file} {harm}")
        self.file, self.harm = file, harm


class BadRecord(Exception):
    """No spelling goes on at this place, or what begins there breaks a rule."""

    def __init__(self, at):
        super().__init__(at)
        self.at = at


@dataclass
class Item:
    kind: str  # db, table or part
    at: int
    born: int
    table: str = None
    values: tuple = None
    rec: dict = None


@dataclass
class Op:
    kind: str
    table: str = None
    born: int = None
    values: tuple = None
    to: object = None
    rec: dict = None


@dataclass
class Event:
    id: int
    moment: int
    kind: str
    db: str
    db_born: int
    ops: list


@dataclass
class Dump:
    source: str
    db: str
    number: int
    bootstrap: bool
    begin: int
    end: int
    born: int
    files: list  # of name, length and digest
    items: list = field(default_factory=list)  # a list for each item file
    events: list = field(default_factory=list)  # a list for each event file

    def tables(self):
        """Each table's name with its born, and the values of its partitions."""
        return {item.table: (item.born, [part.values for part in self.parts_of(item)]) for item in self.all_items() if item.kind == "table"}

    def parts_of(self, table):
        return [item for item in self.all_items() if (item.kind, item.table, item.born) == ("part", table.table, table.born)]

    def all_items(self):
        return [item for file in self.items for item in file]

    def all_events(self):
        return [event for file in self.events for event in file]

    def size(self):
        return sum(length for _, length, _ in self.files)


# ---- bytes to values


class Reader:
    """Values at the front of what is left of a file's bytes."""

    def __init__(self, data):
        self.data, self.at = data, 0

    def take(self, count):
        if len(self.data) - self.at < count:
            raise BadRecord(len(self.data))
        self.at += count
        return self.data[self.at - count : self.at]

    def number(self, size=8, signed=False):
        return int.from_bytes(self.take(size), "big", signed=signed)

    def signed(self, size=8):
        return self.number(size, signed=True)

    def one_of(self, *known):
        """A tag or a flag that has to be one of these."""
        at = self.at
        value = self.number(1)
        if value not in known:
            raise BadRecord(at)
        return value

    def flag(self):
        return self.one_of(0, 1) == 1

    def text(self):
        at = self.at
        length = self.number(4)
        if length > TEXT_LIMIT:
            raise BadRecord(at)
        try:
            return self.take(length).decode("utf-8")
        except UnicodeDecodeError:
            raise BadRecord(at)

    def optional(self, value):
        return value(self) if self.flag() else None

    def count(self):
        at = self.at
        count = self.number(4)
        if count > COUNT_LIMIT:
            raise BadRecord(at)
        return count

    def listed(self, value):
        return [value(self) for _ in range(self.count())]

    def texts(self):
        return tuple(self.listed(Reader.text))

    def map(self, key, value, order):
        """A map whose keys rise by this order."""
        found, last = {}, None
        for _ in range(self.count()):
            at = self.at
            name = key(self)
            if last is not None and order(name) <= order(last):
                raise BadRecord(at)
            found[name], last = value(self), name
        return found

    def params(self):
        return self.map(Reader.text, Reader.text, str.encode)


def by_bytes(values):
    """Lists of texts go by the bytes of these."""
    return [value.encode() for value in values]


def fields(*known):
    """A record of these fields, each with its name and how it is read."""
    return lambda reader: {name: value(reader) for name, value in known}


text, texts, params = Reader.text, Reader.texts, Reader.params
i32, i64 = lambda reader: reader.signed(4), lambda reader: reader.signed(8)
maybe = lambda value: lambda reader: reader.optional(value)
listed = lambda value: lambda reader: reader.listed(value)

column = fields(("name", text), ("ty", text), ("comment", maybe(text)))
order = fields(("col", text), ("dir", i32))
serde = fields(("name", maybe(text)), ("lib", maybe(text)), ("params", params))
skew = fields(("cols", texts), ("values", listed(texts)), ("places", lambda reader: reader.map(texts, text, by_bytes)))
storage = fields(
    ("cols", listed(column)), ("location", maybe(text)), ("input", maybe(text)), ("output", maybe(text)), ("compressed", Reader.flag),
    ("buckets", i32), ("serde", maybe(serde)), ("bucket_cols", texts), ("sort_cols", listed(order)), ("params", params), ("skew", maybe(skew)),
    ("sub_dirs", maybe(Reader.flag)))
flags = fields(("trues", i64), ("falses", i64), ("nulls", i64))
long = fields(("low", maybe(i64)), ("high", maybe(i64)), ("nulls", i64), ("distinct", i64))
string = fields(("longest", i64), ("average", lambda reader: reader.take(8)), ("nulls", i64), ("distinct", i64))
stat_value = lambda reader: {1: flags, 2: long, 3: string}[reader.one_of(1, 2, 3)](reader)
stats = lambda reader: reader.map(text, fields(("analyzed", i64), ("value", stat_value)), str.encode)
db_rec = fields(("description", maybe(text)), ("location", maybe(text)), ("params", params), ("owner", maybe(text)))
table_rec = fields(
    ("owner", maybe(text)), ("created", i32), ("accessed", i32), ("retention", i32), ("sd", storage), ("keys", listed(column)), ("params", params),
    ("view_original", maybe(text)), ("view_expanded", maybe(text)), ("kind", maybe(text)), ("stats", stats))
part_rec = fields(("created", i32), ("accessed", i32), ("sd", maybe(storage)), ("params", params), ("stats", stats))

number = Reader.number
ITEMS = {
    1: ("db", fields(("at", number), ("born", number), ("rec", db_rec))),
    2: ("table", fields(("at", number), ("table", text), ("born", number), ("rec", table_rec))),
    3: ("part", fields(("at", number), ("table", text), ("born", number), ("values", texts), ("rec", part_rec))),
}
OPS = {
    1: ("put_db", fields(("rec", db_rec))),
    2: ("drop_db", fields()),
    3: ("put_table", fields(("table", text), ("born", number), ("rec", table_rec))),
    4: ("drop_table", fields(("table", text), ("born", number))),
    5: ("move_table", fields(("table", text), ("born", number), ("to", text), ("rec", table_rec))),
    6: ("put_part", fields(("table", text), ("born", number), ("values", texts), ("rec", part_rec))),
    7: ("drop_part", fields(("table", text), ("born", number), ("values", texts))),
    8: ("move_part", fields(("table", text), ("born", number), ("values", texts), ("to", texts), ("rec", part_rec))),
}


def tagged(table, made):
    """How a value is read whose tag says which of these it is."""

    def read(reader):
        kind, rest = table[reader.one_of(*table)]
        return made(kind=kind, **rest(reader))

    return read


item, op = tagged(ITEMS, Item), tagged(OPS, Op)


def event(reader):
    id, moment = reader.number(), reader.number()
    kind = KINDS[reader.one_of(*range(1, len(KINDS) + 1)) - 1]
    return Event(id, moment, kind, reader.text(), reader.number(), reader.listed(op))


# ---- the rules of a dump's files


class Judge:
    """The rules of the files of a dump, which are judged one after the other and from left to right."""

    def __init__(self, dump):
        self.dump, self.mark, self.last_event = dump, dump.begin, dump.begin
        self.table, self.names, self.values = None, None, None

    def file(self, data, value, keeps, most):
        """The elements of a file, each of which has to keep a rule, and at most so many."""
        reader, found = Reader(data), []
        count = reader.count()
        if count == 0:
            raise BadRecord(4)
        for place in range(count):
            at = reader.at
            element = value(reader)
            if place >= most or not keeps(element, place):
                raise BadRecord(at)
            found.append(element)
        if reader.at < len(data):
            raise BadRecord(reader.at)
        return found

    def first(self, data):
        return self.file(data, item, lambda it, _: it.kind == "db" and it.born == self.dump.born and self.marked(it), 1)

    def later(self, data):
        return self.file(data, item, self.goes_on, PARTS_LIMIT)

    def goes_on(self, it, place):
        """A later item file has one table, or partitions of the table before them."""
        if it.kind == "table":
            fits = place == 0 and (self.names is None or it.table.encode() > self.names)
            self.table, self.names, self.values, self.alone = it, it.table.encode(), None, True
            return fits and self.marked(it)
        if it.kind == "db" or self.table is None or (place > 0 and self.alone):
            return False
        self.alone = False
        fits = (it.table, it.born) == (self.table.table, self.table.born) and (self.values is None or by_bytes(it.values) > self.values)
        self.values = by_bytes(it.values)
        return fits and self.marked(it)

    def marked(self, it):
        fits = self.mark <= it.at <= self.dump.end
        self.mark = it.at
        return fits

    def follows(self, it, _):
        """An event of the dump's database, behind the one before."""
        fits = self.last_event < it.id <= self.dump.end and (it.db, it.db_born) == (self.dump.db, self.dump.born)
        self.last_event = it.id
        made = it.kind == "CREATE_DATABASE" and any(one.kind == "put_db" for one in it.ops)
        return fits and not made and not any(one.kind == "drop_db" for one in it.ops)

    def events(self, data):
        return self.file(data, event, self.follows, EVENTS_LIMIT)


def digits(word, most, least=0):
    """A number in decimal without leading zeros, or None."""
    return int(word) if re.fullmatch("0|[1-9][0-9]*", word) and least <= int(word) <= most else None


def read_manifest(data, source, dump_number):
    """The manifest of these bytes, which have to be of this source and number."""
    lines = Lines(data)
    lines.take("hms-dump 1")
    lines.take(f"source {source}")
    db = lines.value("db ", lambda word: word if re.fullmatch("[a-z0-9_]{1,128}", word) else None)
    lines.take(f"dump {dump_number}")
    bootstrap = lines.value("kind ", {"bootstrap": True, "incremental": False}.get)
    begin = lines.value("begin ", lambda word: digits(word, LAST_NUMBER))
    end = lines.value("end ", lambda word: digits(word, LAST_EVENT, begin))
    born = lines.value("born ", lambda word: digits(word, LAST_NUMBER))
    dump = Dump(source, db, dump_number, bootstrap, begin, end, born, [])
    while file := lines.file(next_names(dump)):
        dump.files.append(file)
    if bootstrap and not dump.files:
        raise BadRecord(lines.at)
    lines.take("done")
    if lines.at < len(data):
        raise BadRecord(lines.at)
    return dump


def next_names(dump):
    """The names that the next file may have: an item file's behind item files, an event file's behind all."""
    events = sum(name.startswith("e") for name, _, _ in dump.files)
    items = len(dump.files) - events
    names = [f"i{items}"] if dump.bootstrap and not events else []
    return names + ([f"e{events}"] if items or not dump.bootstrap else [])


class Lines:
    """The lines of a manifest."""

    def __init__(self, data):
        self.data, self.at = data, 0

    def line(self):
        """The next line, and the place behind it."""
        if self.at == len(self.data):
            raise BadRecord(self.at)
        end = self.data.find(b"\n", self.at)
        if end < 0:
            raise BadRecord(self.at)
        try:
            return self.data[self.at : end].decode("ascii"), end + 1
        except UnicodeDecodeError:
            raise BadRecord(self.at)

    def take(self, wanted):
        line, behind = self.line()
        if line != wanted:
            raise BadRecord(self.at)
        self.at = behind

    def value(self, word, read):
        """What a line says behind its word."""
        line, behind = self.line()
        found = read(line[len(word) :]) if line.startswith(word) else None
        if found is None:
            raise BadRecord(self.at)
        self.at = behind
        return found

    def file(self, names):
        """The name, length and digest of a file, or None where no line of a file stands."""
        line, behind = self.line()
        if not line.startswith("file "):
            return None
        words = line.split(" ")
        if len(words) != 4 or words[1] not in names or digits(words[2], LAST_NUMBER) is None or not re.fullmatch("[0-9a-f]{64}", words[3]):
            raise BadRecord(self.at)
        self.at = behind
        return words[1], int(words[2]), words[3]


def content(path):
    try:
        with open(path, "rb") as file:
            return file.read()
    except FileNotFoundError:
        return None


def read_dump(dumps, directory):
    """The dump in a directory of the folder of dumps; raises Damaged with the first harm."""
    form = re.fullmatch("([0-9a-f]{32})-(0|[1-9][0-9]*)", directory)
    data = content(f"{dumps}/{directory}/manifest") if form and int(form[2]) <= LAST_NUMBER else None
    if data is None:
        raise Damaged("manifest", "absent")
    try:
        dump = read_manifest(data, form[1], int(form[2]))
    except BadRecord as bad:
        raise Damaged("manifest", f"grammar at {bad.at}")
    judge = Judge(dump)
    for name, length, digest in dump.files:
        data = content(f"{dumps}/{directory}/{name}")
        if data is None:
            raise Damaged(name, "absent")
        if len(data) != length:
            raise Damaged(name, "length")
        if hashlib.sha256(data).hexdigest() != digest:
            raise Damaged(name, "digest")
        try:
            if name.startswith("e"):
                dump.events.append(judge.events(data))
            else:
                dump.items.append(judge.first(data) if name == "i0" else judge.later(data))
        except BadRecord as bad:
            raise Damaged(name, f"grammar at {bad.at}")
    return dump


def told(dump):
    kind = "all" if dump.bootstrap else "events"
    tables = dump.tables()
    parts = sum(len(values) for _, values in tables.values())
    return (f"dump {dump.number} of {dump.db}, {kind} from {dump.begin} to {dump.end}: {len(dump.files)} files of {dump.size()} bytes, {len(tables)} tables, "
            f"{parts} partitions, {len(dump.all_events())} events")


if __name__ == "__main__":
    dumps, *names = sys.argv[1:]
    wrong = 0
    for name in names or sorted(os.listdir(dumps)):
        try:
            print(f"{name}: {told(read_dump(dumps, name))}")
        except Damaged as damaged:
            wrong += 1
            print(f"{name}: damaged {damaged}")
    sys.exit(1 if wrong else 0)
