"""What a pfd was told since its file was formatted, read from the file (docs/DISK.md): a second witness, which no crash can fool. The
file has to be so large that it was never switched to its other bank."""
import ipaddress
import typing

HEADER, RULE, ENTRY = 24, 204, 20


class Commit(typing.NamedTuple):
    """Of each path its rules' labels, and of each path its tables with their entries."""

    rules: dict
    tables: dict


class Edit(typing.NamedTuple):
    """`tadd`, `tdel` or `tset` of a table."""

    word: str
    path: str
    name: str
    entries: list


class Reader:
    def __init__(self, image):
        self.image, self.at = image, 0

    def take(self, count):
        self.at += count
        if self.at > len(self.image):
            raise ValueError("it ends too early")
        return self.image[self.at - count : self.at]

    def number(self, count):
        return int.from_bytes(self.take(count), "big")

    def text(self):
        return self.take(self.number(1)).decode()

    def entry(self):
        family, bits, is_negated, _, *address = self.take(ENTRY)
        made = ipaddress.ip_address(bytes(address[: 4 if family == 4 else 16]))
        text = str(made) if family == 4 else ":".join(f"{int(it, 16):x}" for it in made.exploded.split(":"))
        return f"{'!' if is_negated else ''}{text}{'' if bits == made.max_prefixlen else f'/{bits}'}"

    def entries(self):
        return [self.entry() for _ in range(self.number(4))]

    def label(self):
        rule = self.take(RULE)
        return self.take(rule[201]).decode() if rule[0] != 2 else None

    def commit(self):
        commit = Commit({}, {})
        for _ in range(self.number(1)):
            kind, path = self.number(1), self.text()
            if kind == 1:
                commit.rules[path] = [self.label() for _ in range(self.number(4))]
            else:
                commit.tables[path] = {self.text(): self.entries() for _ in range(self.number(4))}
        return commit

    def change(self):
        """A change, or None for an opening."""
        kind = self.number(1)
        if kind == 1:
            return self.commit()
        if kind in (2, 3, 4):
            return Edit(("tadd", "tdel", "tset")[kind - 2], self.text(), self.text(), self.entries())
        if kind != 7:
            raise ValueError(f"a change of kind {kind}, which no agent makes")
        self.take(4)
        return None


def changes_of(file):
    """The changes in the order in which they were made, and how often the file was opened."""
    with open(file, "rb") as it:
        image = it.read()
    half = len(image) // 2
    if image[half] == 0xA5 or int.from_bytes(image[8:16], "big") != 1:
        raise ValueError("it was switched to its other bank: the trial needs a larger file")
    reader = Reader(image[:half])
    reader.take(16)
    reader.at = HEADER + reader.number(4)
    changes, openings = [], 0
    while reader.number(1) == 0xA5:
        reader.number(4)
        for _ in range(reader.number(1)):
            change = reader.change()
            openings += change is None
            changes += [change] if change else []
    return changes, openings
