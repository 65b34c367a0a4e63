"""shared.py LIBRARY: the archive as a shared library, called through ctypes on examples/season.sheet. The last line counts calls."""
import ctypes
import sys

library = ctypes.CDLL(sys.argv[1])
size, number, pointer = ctypes.c_size_t, ctypes.c_uint64, ctypes.c_char_p
library.simmerknot_version.argtypes = []
library.simmerknot_evaluate.argtypes = [number, pointer, size, pointer, size]
library.simmerknot_conflict.argtypes = [number, pointer, size]
library.simmerknot_reasons.argtypes = [number, pointer, size, pointer, size]
library.simmerknot_check_reasons.argtypes = [number, pointer, size, pointer, size, pointer, size]
library.simmerknot_sheet.argtypes = [pointer, size, pointer, size, pointer, size, pointer, size]
for call in ("version", "evaluate", "conflict", "reasons", "check_reasons", "sheet"):
    getattr(library, f"simmerknot_{call}").restype = number

calls = 0


def same(what, found, wanted):
    global calls
    if found != wanted:
        sys.exit(f"shared.py: {what}: {found!r}, not {wanted!r}")
    calls += 1


def table_of(words):
    return b"".join(word.to_bytes(2, "little") for word in words)


def evaluate(n, words, room):
    table = table_of(words)
    values = ctypes.create_string_buffer(b"\7" * room, room)
    return library.simmerknot_evaluate(n, table, len(table), values, room), values.raw


def conflict(n, words):
    table = table_of(words)
    return library.simmerknot_conflict(n, table, len(table))


def reasons(n, words, room):
    table = table_of(words)
    text = ctypes.create_string_buffer(b"\7" * room, room)
    return library.simmerknot_reasons(n, table, len(table), text, room), text.raw


def check_reasons(n, words, values, text):
    table = table_of(words)
    return library.simmerknot_check_reasons(n, table, len(table), values, len(values), text, len(text))


def read(sheet, room):
    words = ctypes.create_string_buffer(16384)
    names = ctypes.create_string_buffer(2048)
    text = ctypes.create_string_buffer(b"\7" * room, room)
    answer = library.simmerknot_sheet(sheet, len(sheet), words, 16384, names, 2048, text, room)
    return answer, text.raw, lines_in(words.raw)


def lines_in(words):
    """The line of each record of a sheet's words, up to the zeros."""
    table = [int.from_bytes(words[at:at + 2], "little") for at in range(0, len(words), 2)]
    lines, at = [], 0
    while at + 3 <= len(table) and table[at + 1]:
        lines.append(table[at + 1])
        groups, at = table[at + 2], at + 3
        for _ in range(groups):
            at += 1 + table[at]
    return lines


major, minor, patch = (int(part) for part in sys.argv[2].split("."))
same("version", library.simmerknot_version(), 1000000 * major + 1000 * minor + patch)
same("p, -p, q", evaluate(3, [0, 1, 0, 1, 2, 0, 2, 3, 0], 4), (0, b"\2\3\1\7"))
same("p, -p, q by hand", evaluate(3, [0, 0, 0, 1, 0, 0, 2, 0, 0], 4), (0, b"\2\3\1\7"))
same("all 512 atoms marked", evaluate(512, [word for head in range(1024) for word in (head, 0, 0)], 513), (0, b"\2" * 512 + b"\7"))
same("line 32,769", evaluate(1, [0, 32769, 0], 1), ((6 << 32) + 1, b"\7"))
same("second rule", evaluate(1, [0, 0, 0, 0, 0, 0], 1), ((7 << 32) + 3, b"\7"))
same("a conflict in p, -p, q", conflict(3, [0, 1, 0, 1, 2, 0, 2, 3, 0]), 1)
same("none in p, q", conflict(3, [0, 1, 0, 2, 3, 0]), 0)
same("none in -b: b", conflict(1, [1, 1, 1, 1, 0]), 0)
same("a conflict not asked of a second rule", conflict(1, [0, 0, 0, 0, 0, 0]), (7 << 32) + 3)
same("a conflict not asked of a lone byte", library.simmerknot_conflict(1, b"\0\0\0\0\0\0\1", 7), (4 << 32) + 3)
same("a reason", reasons(1, [1, 1, 0], 9), (8, b"1\t0\t1\t0\n\7"))
same("no room for a reason", reasons(1, [1, 1, 0], 7), ((15 << 32) + 8, b"\7" * 7))
same("a reason of a second rule", reasons(1, [0, 0, 0, 0, 0, 0], 9), ((7 << 32) + 3, b"\7" * 9))
same("accepted", check_reasons(1, [1, 1, 0], b"\0\7", b"1\t1023\t1\t0\n"), 0)
same("-b: b, i", check_reasons(1, [1, 1, 1, 1, 0], b"\2", b"0\t0\t1\t1\n1\t1\t1\t1\n"), 0)
same("rank 1,024", check_reasons(1, [1, 1, 0], b"\0", b"1\t1024\t1\t0\n"), (22 << 32) + 1)
same("no byte 10", check_reasons(1, [1, 1, 0], b"\0", b"1\t1\t1\t0"), (21 << 32) + 7)
same("no model", check_reasons(2, [0, 1, 0, 2, 2, 0], b"\3\1", b""), (34 << 32) + 3)
same("code 4", check_reasons(2, [], b"\1\4", b""), (20 << 32) + 1)
same("no values", check_reasons(1, [], b"", b""), 3 << 32)
same("null pointers", library.simmerknot_conflict(512, None, 0), 0)
same("null pointers", library.simmerknot_reasons(512, None, 0, None, 0), 0)
same("null pointers", library.simmerknot_check_reasons(0, None, 0, None, 0, None, 0), 0)
same("null pointers", library.simmerknot_evaluate(0, None, 0, None, 0), 0)
same("null pointers", library.simmerknot_sheet(None, 0, None, 0, None, 0, None, 0), 9 << 32)
season, values = (open(f"examples/season.{kind}", "rb").read() for kind in ("sheet", "values"))
numbers = list(range(1, 1 + season.count(b"\n")))
same("season", read(season, len(values) + 1), (len(values), values + b"\7", numbers))
same("all names marked", read(b"p\n-p\n-q\tp\nq\n", 9), (8, b"p\ti\nq\ti\n\7", [1, 2, 3, 4]))
same("no room", read(season, len(values) - 1), ((15 << 32) + len(values), b"\7" * (len(values) - 1), []))
print(calls)
