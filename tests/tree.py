"""The crates as text: which files there are, what they declare, what they bring in and what their contracts say.

For tests/landing, tests/unused and tests/reading. What is where is found from crates.txt and the Lib.antt files.
"""

import collections
import itertools
import re

Declared = collections.namedtuple("Declared", "name file line text public kind inner")  # inner: constructors, fields
Brought = collections.namedtuple("Brought", "line path item name passed_on")  # item is None where a module is brought in
Function = collections.namedtuple("Function", "name file line head contract body public")


def crates(root):
    """The crates' names, in the order of crates.txt."""
    return re.findall(r"^([a-z0-9_]+)(?: +staticlib)? *:", (root / "crates.txt").read_text(), re.M)


def files(root, crate, part):
    """The files of a crate's specs/, proofs/ or src/; those that Lib.antt names come in its order."""
    folder = root / "crates" / crate / part
    found = sorted(folder.rglob("*.rt" if part == "src" else "*.antt"))
    lib = folder / "Lib.antt"
    order = re.findall(r"^(?:pub )?mod (\S+)", lib.read_text(), re.M) if lib.exists() else []

    def place(file):
        first = file.relative_to(folder).parts[0].removesuffix(".antt")
        return order.index(first) if first in order else len(order)

    return sorted(found, key=place)


def bare(text, mark):
    """A file without its comments, line by line: `mark` begins one. Antt's may also stand between {- and -}."""
    if mark == "--":
        text = re.sub(r"\{-.*?-\}", lambda c: "\n" * c.group().count("\n"), text, flags=re.S)
    return re.sub(rf"(^|(?<=\s)){mark}.*$", "", text, flags=re.M)


def tokens(text):
    """The words of antt text. `a.b` is one word, and so is `.b`; the dot after λ's names is none."""
    return [word.rstrip(".") or word for word in re.findall(r"[^\s(){};,\"⌜⌝]+", text)]


MARKS = ("pub", "abbrev", "unfoldable", "data", "record", "axiom")


def signature(words):
    """(marks, names) of a line that begins a declaration, as `abbrev pub a b : ..` or `pub record R (x : A) ..`; else None."""
    line = words.split()
    marks = list(itertools.takewhile(lambda word: word in MARKS, line))
    names = list(itertools.takewhile(lambda word: word not in (":", "where") and word[0] not in "({=", line[len(marks):]))
    if "data" in marks or "record" in marks:
        names = names[:1]
    elif line[len(marks) + len(names):][:1] != [":"]:
        return None
    return marks, names


def declarations(file):
    """What an antt file declares, also inside `module _ .. where`; a text has the module's parameters in it, and fixities.

    A declaration reaches to the next one of its indentation: its clauses, constructors, fields and helpers are its own.
    """
    found = []
    fixities = {}
    opened = []  # (indentation, header) of the modules around
    now = None  # [names, line, lines, public, kind, indentation, inner]

    def close():
        if now:
            text = " ".join(" ".join([header for _, header in opened] + now[2]).split())
            for name in now[0]:
                found.append(Declared(name, file, now[1], text, now[3], now[4], now[6]))

    lines = bare(file.read_text(), "--").split("\n")
    for number, line in enumerate(lines, 1):
        if not line.strip():
            continue
        depth = len(line) - len(line.lstrip())
        words = line.strip()
        if now and depth > now[5]:
            now[2].append(words)
            if now[4] in ("data", "record") and depth == now[5] + 2:
                now[6].extend((signature(words) or ((), ()))[1])
            continue
        if re.match(r"(pub )?(use|mod) ", words):
            close()
            now = None
            continue
        if re.match(r"infix[lr]? ", words):
            fixities[words.split()[-1]] = words
            continue
        module = re.match(r"(?:pub )?module ", words)
        begun = None if module else signature(words)
        if not module and not begun:  # a clause, or an `unfolding` line
            if now:
                now[2].append(words)
            continue
        close()
        now = None
        opened = [(indent, header) for indent, header in opened if indent <= depth]
        if module:
            header = [words]
            while not header[-1].endswith("where") and number + len(header) <= len(lines):
                header.append(lines[number + len(header) - 1].strip())
            opened.append((depth + 2, " ".join(header)))
            continue
        marks, names = begun
        now = [names, number, [words], "pub" in marks, next((m for m in marks if m != "pub"), "definition"), depth, []]
    close()
    return [d._replace(text=f"{fixities[d.name]} {d.text}") if d.name in fixities else d for d in found]


def brought(file):
    """The names that a file's use lines bring in."""
    found = []
    mark, line_form = ("//", r"((?:pub |ghost )*)use (.*);") if file.suffix == ".rt" else ("--", r"((?:pub |unfoldable )*)use (.*)")
    for number, line in enumerate(bare(file.read_text(), mark).split("\n"), 1):
        use = re.fullmatch(line_form, line.rstrip())
        if not use:
            continue
        passed_on = "pub" in use.group(1)
        listed = re.fullmatch(r"(.*?)(?:\.|::)\{(.*)\}", use.group(2))
        if listed:
            for item in listed.group(2).split(","):
                item, _, name = item.strip().partition(" as ")
                found.append(Brought(number, listed.group(1), item, name or re.split(r"\.(?=[^.])", item)[-1], passed_on))
        else:
            path, _, name = use.group(2).partition(" as ")
            found.append(Brought(number, path, None, name or re.split(r"::|\.", path)[-1], passed_on))
    return found


def functions(file):
    """The functions of a Rattle file; the name has the impl's type before it."""
    found = []
    lines = bare(file.read_text(), "//").split("\n")
    within = ""
    at = 0
    while at < len(lines):
        line = lines[at]
        impl = re.match(r"impl(?:<[^>]*>)? (\w+)", line)
        if impl:
            within = impl.group(1) + "::"
        elif line.startswith("}"):
            within = ""
        fn = re.match(r"( *)((?:pub )?)(?:extern \"C\" )?fn (\w+)", line)
        if not fn:
            at += 1
            continue
        indent, start, head, contract = fn.group(1), at, [], []
        while not re.match(rf"{indent}\S.*\{{(.*\}})?$|{indent}\{{", lines[at]):
            (contract if contract or re.match(r" +(requires|ensures|decreases)\b", lines[at]) else head).append(lines[at])
            at += 1
        head.append(lines[at])
        body = at
        while not lines[at].startswith(indent + "}") and not lines[body].endswith("}"):
            at += 1
        found.append(Function(within + fn.group(3), file, start + 1, " ".join(" ".join(head).split()).rstrip("{ "),
                              " ".join(" ".join(contract).split()), "\n".join(lines[body:at]), bool(fn.group(2))))
        at += 1
    return found


def contract_lines(file):
    """A Rattle file's text in two: the lines of its contracts and ghost items, and all the others."""
    contracts, others, depth = [], [], None
    for line in file.read_text().split("\n")[:-1]:
        clause = re.match(r" +(?:(?:requires|ensures|decreases)\*?(?: \w+)?|(?:pub )?ghost (?:invariant )?\w+(?: =|:)) \{", line)
        if depth is None and clause:
            depth = 0
        if depth is None:
            others.append(line)
            continue
        contracts.append(line)
        depth += line.count("{") - line.count("}")
        if depth <= 0:
            depth = None
    return contracts, others


def module_file(root, path):
    """The file that a module's path names, or None: Rattle.words.specs.Check, Rattle.words.proofs.Laws."""
    parts = re.fullmatch(r"Rattle\.(\w+)\.(specs|proofs)\.(.+)", path)
    if not parts:
        return None
    crate, part, rest = parts.groups()
    file = root / "crates" / crate / part / (rest.replace(".", "/") + ".antt")
    return file if file.exists() else None
