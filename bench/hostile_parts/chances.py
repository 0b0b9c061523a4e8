"""Numbers that look random as crates/pf_store_tests makes them, and the lines, peers' streams and images that its rows make of them.

The program and this make the same for the same seed, number by number, so that what comes of them can be compared by a checksum. What the rows
`word`, `lines`, `streams` and `images` mean is said in the head of that crate's stdin; how a number is taken for each choice is the program's
alone, and is written here in the same order.
"""
ALL_BITS = (1 << 64) - 1
FACTOR, STEP = 6_364_136_223_846_793_005, 1_442_695_040_888_963_407
CHECKSUM, CHECKSUM_FACTOR = 0xCBF2_9CE4_8422_2325, 0x0100_0000_01B3
# Bytes that mean something in a line, in a peer's stream, in an image.
LINE_BYTES = b"\0\t\r\n !\"#*-./0:<>@a\x7f\x80\xff"
STREAM_BYTES = bytes([0, 1, 2, 4, 5, 6, 17, 58, 64, 68, 88, 152, 255])
IMAGE_BYTES = bytes([0, 1, 2, 4, 5, 6, 7, 9, 0x10, 0x2B, 0x7D, 0x7E, 0x80, 0xA5, 0xA5, 0xFF])
# How long the pieces of a stream are at most, how many there are, and how often words stand for words.
PIECES, MOST_PIECES, DEEPEST = (1, 7, 40, 200), 1000, 6


def leaps(most):
    """By which factor and step no number, one, two and so on are passed by at once."""
    factor, step = 1, 0
    for _ in range(most + 1):
        yield factor, step
        factor, step = factor * FACTOR & ALL_BITS, (step * FACTOR + STEP) & ALL_BITS


LEAPS = list(leaps(MOST_PIECES))


class Chance:
    """Numbers, the same ones each time for a seed."""

    def __init__(self, seed):
        self.last = seed

    def number(self):
        self.last = (self.last * FACTOR + STEP) & ALL_BITS
        return self.last

    def below(self, bound):
        self.last = (self.last * FACTOR + STEP) & ALL_BITS
        return (self.last >> 33) % bound if bound else 0

    def pass_by(self, count):
        """As if so many numbers had been taken in turn."""
        factor, step = LEAPS[count]
        self.last = (self.last * factor + step) & ALL_BITS

    def byte(self, old, some):
        """The byte above it or below it, one of some, or any."""
        how = self.below(4)
        if how == 2:
            return some[self.below(len(some))]
        return self.number() >> 56 if how == 3 else (old + (1 if how == 0 else -1)) % 256

    def bytes(self, count):
        return bytes(self.number() >> 56 for _ in range(count))


def checksum(last, some):
    """The checksum behind some bytes."""
    for byte in some:
        last = ((last ^ byte) * CHECKSUM_FACTOR) & ALL_BITS
    return last


class Tally:
    """How often each kind of outcome came, and a checksum of all outcomes in their order, which another function may take."""

    def __init__(self, checksum_of=checksum):
        self.counts, self.checksum, self.checksum_of = {}, CHECKSUM, checksum_of

    def count(self, kind, outcome):
        self.counts[kind] = self.counts.get(kind, 0) + 1
        self.checksum = self.checksum_of(self.checksum, outcome.encode("latin-1") + b"\n")

    def told(self):
        kinds = sorted(self.counts, key=str.encode)
        return [*(f"  {kind}: {self.counts[kind]}" for kind in kinds), f"  checksum {self.checksum:016x}"]


class Words:
    """Words that stand for one of several texts, and TICKET for the last ticket."""

    def __init__(self):
        self.texts, self.ticket = {}, ""

    def add(self, name, texts):
        self.texts.setdefault(name, texts)

    def one_of(self, chance, word):
        if word == "TICKET":
            return self.ticket
        texts = self.texts.get(word)
        return texts[chance.below(len(texts))] if texts else word

    def text(self, chance, word):
        for _ in range(DEEPEST):
            words = word.split(" ")
            if self.texts.keys().isdisjoint(words) and "TICKET" not in words:
                break
            word = " ".join([self.one_of(chance, one) for one in words])
        return word

    def line(self, chance):
        text = self.text(chance, "LINE")
        return text.encode() if chance.below(2) == 0 else changed_line(chance, text)

    def stream(self, chance):
        some = b"".join([bytes.fromhex(self.text(chance, "MESSAGE")) for _ in range(chance.below(3) + 1)])
        if chance.below(2) == 1:
            for _ in range(chance.below(3) + 1):
                some = changed_stream(chance, some)
        return some


def changed_line(chance, line):
    """With up to two words changed, or a byte."""
    times = chance.below(3)
    for _ in range(times):
        line = with_other_words(chance, line)
    some = bytearray(line.encode())
    if times == 0 or chance.below(4) == 0:
        change_byte(chance, some, chance.below(len(line)), LINE_BYTES)
    return bytes(some)


def change_byte(chance, some, place, bytes_of_meaning):
    if place < len(some):
        some[place] = chance.byte(some[place], bytes_of_meaning)


def with_other_words(chance, line):
    """With a word dropped, doubled, exchanged for another, cut, or joined to the one behind it."""
    words = line.split(" ")
    how, place, other = chance.below(5), chance.below(len(words)), chance.below(len(words))
    if how == 0:
        del words[place]
    elif how == 1:
        words.insert(place, words[place])
    elif how == 2:
        words[place], words[other] = words[other], words[place]
    elif how == 3:
        words[place] = words[place][: chance.below(len(words[place]))]
    else:
        words[place : place + 2] = ["".join(words[place : place + 2])]
    return " ".join(words)


def changed_stream(chance, some):
    """Cut, with bytes dropped or doubled, or mostly with another byte."""
    how, place = chance.below(8), chance.below(len(some))
    front, rest = some[:place], some[place:]
    count = chance.below(70)
    if how == 0:
        return front
    if how == 1:
        return front + (rest[count:] if count <= len(rest) else b"")
    if how == 2:
        return front + rest[:count] + rest
    made = bytearray(some)
    change_byte(chance, made, place, STREAM_BYTES)
    return bytes(made)


def pass_pieces(chance, length):
    """Takes the numbers by which the program cuts a stream of so many bytes into pieces."""
    most = PIECES[chance.below(len(PIECES))]
    if most == 1:
        chance.pass_by(min(length, MOST_PIECES))
    else:
        chance.last = behind_pieces(chance.last, most, length)


def behind_pieces(last, most, length):
    """The number that was taken last, where a number is taken for each piece of at most so many bytes."""
    pieces = 0
    while length > 0 and pieces < MOST_PIECES:
        last = (last * FACTOR + STEP) & ALL_BITS
        length, pieces = length - (last >> 33) % most - 1, pieces + 1
    return last


def changed_image(chance, image):
    """With one to four other bytes, mostly in a bank's header or at the front of the first bank."""
    made = bytearray(image)
    for _ in range(chance.below(4) + 1):
        where = chance.below(8)
        place = chance.below(len(image)) if where == 0 else len(image) // 2 + chance.below(26) if where == 1 else chance.below(64)
        change_byte(chance, made, place, IMAGE_BYTES)
    return bytes(made)


def kind_of(reply):
    """By what replies are counted."""
    word, _, rest = reply.partition(" ")
    if word == "err":
        return "err " + rest.partition(" ")[0]
    if word == "":
        return "no reply"
    return word if word in ("ok", "applied", "busy", "pass", "block", "match", "nomatch") else "told"
