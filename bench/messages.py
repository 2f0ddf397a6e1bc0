"""Messages of the protocol, and a store that answers them: what the scripts of bench/ and checks/ share."""

import struct, subprocess

ID = "00112233445566778899aabbccddeeff"


def text(value):
    return struct.pack(">i", len(value)) + value


def message(name, arguments=b""):
    """A call in the strict form, with sequence id 1."""
    return bytes.fromhex("80010001") + text(name) + struct.pack(">i", 1) + arguments + b"\0"


def create(name):
    return message(b"create_database", b"\x0c\0\1\x0b\0\1" + text(name) + b"\0")


def field(kind, number, value):
    return struct.pack(">bh", kind, number) + value


def structs(values):
    return b"\x0c" + struct.pack(">i", len(values)) + b"".join(values)


def texts(pairs):
    """A map from texts to texts."""
    return b"\x0b\x0b" + struct.pack(">i", len(pairs)) + b"".join(text(key) + text(value) for key, value in pairs)


def column(name, kind, comment=None):
    told = b"" if comment is None else field(11, 3, text(comment))
    return field(11, 1, text(name)) + field(11, 2, text(kind)) + told + b"\0"


KINDS = [b"bigint", b"string", b"decimal(18,2)", b"timestamp", b"array<struct<k:string,v:int>>"]


def storage(columns, location):
    parquet = b"org.apache.hadoop.hive.ql.io.parquet."
    serde = field(11, 2, text(parquet + b"serde.ParquetHiveSerDe")) + field(13, 3, texts([(b"serialization.format", b"1")])) + b"\0"
    comments = [b"what column %d holds" % i if i % 3 == 0 else None for i in range(columns)]
    listed = structs([column(b"column_%d" % i, KINDS[i % 5], comments[i]) for i in range(columns)])
    formats = field(11, 3, text(parquet + b"MapredParquetInputFormat")) + field(11, 4, text(parquet + b"MapredParquetOutputFormat"))
    return field(15, 1, listed) + field(11, 2, text(location)) + formats + field(8, 6, struct.pack(">i", -1)) + field(12, 7, serde) + b"\0"


def table(db, name, columns):
    """A Table as query engines make one, with so many columns and two keys."""
    keys = structs([column(b"ds", b"string"), column(b"n", b"int")])
    params = texts([(b"EXTERNAL", b"TRUE"), (b"spark.sql.create.version", b"3.5.1"), (b"spark.sql.sources.provider", b"parquet")])
    named = field(11, 1, text(name)) + field(11, 2, text(db)) + field(11, 3, text(b"ana"))
    place = field(12, 7, storage(columns, b"hdfs://nn/warehouse/" + db + b".db/" + name))
    return named + place + field(15, 8, keys) + field(13, 9, params) + field(11, 12, text(b"EXTERNAL_TABLE")) + b"\0"


def create_table(db, name, columns):
    return message(b"create_table", field(12, 1, table(db, name, columns)))


def get_table(db, name):
    return message(b"get_table", field(11, 1, text(db)) + field(11, 2, text(name)))


def partition(db, name, values, columns):
    """A Partition as query engines make one: its values, and where and how its rows are stored."""
    place = b"/".join([b"hdfs://nn/warehouse/" + db + b".db/" + name, *values])
    named = field(15, 1, b"\x0b" + struct.pack(">i", len(values)) + b"".join(map(text, values)))
    stored = field(12, 6, storage(columns, place)) + field(13, 7, texts([(b"numRows", b"1000"), (b"totalSize", b"65536")]))
    return named + field(11, 2, text(db)) + field(11, 3, text(name)) + stored + b"\0"


def add_partitions(parts):
    return message(b"add_partitions", field(15, 1, structs(parts)))


def repl_dump(db, begin=None):
    """A dump of a database, or of its events after a number."""
    return message(b"repl_dump", field(11, 1, text(db)) + (b"" if begin is None else field(10, 2, struct.pack(">q", begin))))


def dumped(reply):
    """The directory and the last event that the reply to a dump tells, where it has come whole, else None."""
    head = DUMPED + field(12, 0, field(11, 1, b""))
    if not reply.startswith(head[: len(reply)]):
        raise ValueError(f"a dump was answered with {reply.hex()}")
    size = reply[len(head) : len(head) + 4]
    end = len(head) + 4 + int.from_bytes(size, "big")
    last = reply[end : end + 13]
    if len(size) < 4 or len(last) < 13:
        return None
    if last[:3] != field(10, 2, b"") or last[11:] != b"\0\0" or len(reply) > end + 13:
        raise ValueError(f"a dump was answered with {reply.hex()}")
    return reply[len(head) + 4 : end].decode(), int.from_bytes(last[3:11], "big", signed=True)


LISTING = message(b"get_all_databases")
STATUS = message(b"getStatus")
ALIVE = bytes.fromhex("80010002") + STATUS[4:-1] + field(8, 0, b"\0\0\0\2") + b"\0"  # the reply to it
DUMPED = bytes.fromhex("80010002") + message(b"repl_dump")[4:-1]  # the head of the reply to a dump
MADE = bytes.fromhex("80010002") + message(b"create_database")[4:]  # the reply to the creation of a database


def names_in(reply):
    """The names in the reply to a listing."""
    (length,) = struct.unpack_from(">i", reply, 4)
    at = 4 + 4 + length + 4 + 3 + 1  # the head, the head of field 0, and the type of the list's elements
    (count,) = struct.unpack_from(">i", reply, at)
    at, names = at + 4, []
    for _ in range(count):
        (size,) = struct.unpack_from(">i", reply, at)
        names.append(reply[at + 4 : at + 4 + size])
        at += 4 + size
    return names


def make_store(program, folder):
    """Makes a store in a folder, in which its dumps lie too, and returns the command that serves it."""
    dumps = f"{folder}/dumps"
    subprocess.run([program, folder, dumps, "init", ID], check=True, stdout=subprocess.DEVNULL)
    return [program, folder, dumps, "pipe"]
