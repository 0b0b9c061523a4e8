"""Peers' streams and images at random by the million, with fixed seeds: rows `streams S N` and `images S N` of crates/pf_store_tests, of which
the program plays thousands in one process.

Streams are of one to three messages at random; half of them have other bytes, or are cut, or have bytes dropped or doubled. They come to devices
that are new, small, of an older version, or that have rules, states and a tick. The program plays each whole and in pieces that are cut anywhere.
Images have up to four other bytes than one of the bases: docs/DISK.md's example, those that crate's own rows and files have, of all versions and
with switches, what lines at random leave on small devices, snapshots and groups of changes that stand in no file, and any of these cut, doubled,
with its banks swapped or one over the other, or with bytes doubled, dropped or at random.

What is compared with what: all that the program tells of each row with what `player` works out by the plain reading. That is how often each
outcome came, and a checksum of all outcomes in turn: of a stream its messages, its fault, the replies and all states then; of an image what it
is opened as, or its refusal and the place, and all that is kept. Of a row that differs the first stream or image that does is looked for and told.

The checksum is taken by a small library (checksum.c), which is compared with the plain one.
"""
import ctypes
import hashlib
import os

from building import compiled

from .chances import CHECKSUM, Chance, changed_image, checksum, pass_pieces
from .examples import text_of
from .forms import Former
from .grammar import Words, rule
from .images import EXAMPLE, OLDER_EXAMPLE, made_of_forms, used, with_other_shape
from .model import rule_bytes
from .player import Player
from .program import Result, chance, new_folder, shortened, spread
from .reading import refused
from .stops import VERSION_1, VERSION_2, Script, told_by
from .stored import CRATE, FOLDER, told_rows
from .streams import NO_RULES, Maker

# So many streams and images a run of the program plays, on so many devices.
TOGETHER, DEVICES, BASES = 20_000, 5, 10
# How many of a base's images are of it as it is; and how many other shapes of it share the rest.
OF_THE_BASE, SHAPES = 1_000, 20
# How many messages there are for the streams of a run, and of how many one is broken.
MESSAGES, BROKEN = 60, 8
# How often a form is made until one is opened, and a shape until one isn't refused for its size.
TRIES = 20
PASS_ALL = hashlib.md5(rule_bytes(rule(Words(["pass", "all"])))).digest()


# The checksum


def quick_checksum(library):
    function = ctypes.CDLL(library).checksum
    function.argtypes, function.restype = [ctypes.c_uint64, ctypes.c_char_p, ctypes.c_size_t], ctypes.c_uint64
    return lambda last, some: function(last, some, len(some))


def compare_checksums(library):
    result, some = Result(), bytes(range(256)) * 4
    result.compare("the checksum of the small library", checksum(CHECKSUM, some), quick_checksum(library)(CHECKSUM, some))
    return result


# Devices of which the rows are known


def with_bytes(image):
    """The rows of a device with these bytes."""
    put = " ".join([f"{place}={byte:02x}" for place, byte in enumerate(image) if byte])
    return [f"zeros {len(image)}", *([f"put {put}"] if put else [])]


def rows_of_images():
    """What stands before each row `images` of the crate's own."""
    for section in text_of(f"{CRATE}/stdin").split("\n== "):
        rows = [row for row in section.split("\n")[1:] if row and not row.startswith("//")]
        last = next((place for place, row in enumerate(rows) if row.startswith("images ")), None)
        if last is not None:
            yield rows[:last]


def known():
    """The examples, in some sizes and versions, the devices of the crate's own rows, and its files."""
    for size in (256, 300, 512, 1024):
        yield with_bytes(EXAMPLE.ljust(size, b"\0"))
    for version in (1, 2):
        yield with_bytes((OLDER_EXAMPLE[:1] + bytes([version]) + OLDER_EXAMPLE[2:]).ljust(300, b"\0"))
    yield from rows_of_images()
    for name in sorted(os.listdir(FOLDER)):
        if name.startswith(("one-bank-", "version-")):
            yield [f"file {name}"]


def tried(make, holds):
    """What is made until this holds of it, or what was made last."""
    for _ in range(TRIES):
        made = make()
        if holds(made):
            break
    return made


# What is played


class Crowd(Script):
    """The rows of one run, with what each has to come to, and where streams and images are among them."""

    def __init__(self, random, library):
        super().__init__(random, Player(FOLDER, quick_checksum(library)))
        self.former, self.known, self.places = Former(random), list(known()), []

    def all_rows(self, rows):
        for row in rows:
            self.row(row)

    def crowd(self, word, count):
        self.places.append(len(self.rows))
        self.row(f"{word} {self.random.getrandbits(62)} {count}")

    def changed_by_lines(self, count):
        """A device of any size, opened, with what some lines leave."""
        self.all_rows([*self.device(), "open"])
        if self.random.randrange(2):
            self.keep_states()
        self.lines(self.random.randrange(1, count))

    # Streams

    def streams(self):
        self.row(f"word MESSAGE | {' | '.join(self.messages())}")
        for _ in range(DEVICES):
            self.random.choice((self.new_device, self.kept_states, lambda: self.changed_by_lines(10)))()
            self.crowd("streams", TOGETHER // DEVICES)

    def messages(self):
        maker = Maker(self.random, names=6, most_records=3)
        maker.checksums = [NO_RULES, PASS_ALL, PASS_ALL, bytes(16)]
        for _ in range(MESSAGES):
            some = maker.message()
            yield (some if self.random.randrange(BROKEN) else maker.broken(some)).hex()

    def new_device(self):
        self.all_rows([f"zeros {self.random.choice((256, 300, 400, 512, 1024, 4096))}", self.random.choice(("format", VERSION_1, VERSION_2))])

    def kept_states(self):
        """A device with a rule by which packets are tracked, some states of peers and of its own, and a tick."""
        self.all_rows([f"zeros {self.random.choice((1024, 2048))}", "format", "open"])
        self.keep_states()
        maker = Maker(self.random, names=6, most_records=2)
        maker.checksums = [PASS_ALL]
        for number in range(self.random.randrange(4)):
            self.all_rows([f"peer {maker.message().hex()}", f"track {number} 2 in em0 tcp 10.0.0.{number} 1 10.0.0.8 2 until {number + 2}"])
        self.row(f"expire {self.random.randrange(4)}")

    # Images

    def images(self):
        for _ in range(BASES):
            self.random.choice((self.known_device, self.known_device, self.formed, lambda: self.changed_by_lines(20)))()
            self.crowd("images", OF_THE_BASE)
            image = self.player.image
            for _ in range(SHAPES):
                self.all_rows([*with_bytes(self.shape(image)), "with"])
                self.crowd("images", (TOGETHER // BASES - OF_THE_BASE) // SHAPES)

    def known_device(self):
        self.all_rows(self.random.choice(self.known))

    def shape(self, image):
        places = used(image)
        return tried(lambda: with_other_shape(self.random, image, places), lambda made: refused(made) != "bad size")

    def formed(self):
        self.all_rows(with_bytes(tried(lambda: made_of_forms(self.former), lambda made: refused(made) is None)))


# Comparing


def play_run(job):
    """One run of the program: streams or images."""
    options, word, number, library = job
    crowd, heading, result = Crowd(chance(options.seed, "crowds", word, number), library), f"== {word} {number}", Result()
    crowd.row(heading)
    getattr(crowd, word)()
    done = told_by(options.store_tests, "\n".join([row for row, _ in crowd.rows]))
    if not result.check(f"{word} {number}: status {done.returncode}, {done.stderr[-300:]}", done.returncode == 0):
        return result
    blocks = told_rows(done.stdout, heading)
    result.check(f"{word} {number}: {len(crowd.rows)} rows are wanted, and there are {len(blocks)}", len(crowd.rows) == len(blocks))
    for place, ((row, told), block) in enumerate(zip(crowd.rows, blocks)):
        if place in crowd.places:
            compare_crowd(result, options, crowd.rows[:place], row, told, block)
        else:
            result.compare(f"{word} {number}, {shortened(row, 120)}", told, block)
    result.wrong += [f"{word} {number}: {text}" for text in crowd.player.wrong]
    return result


def compare_crowd(result, options, before, row, told, block):
    """A row of many streams or images, each of which counts. In the first row that differs it is looked which of them do."""
    word, _, count = row.split(" ")
    result.counts[word] += int(count)
    if told == block:
        result.passed += int(count)
        return
    wanted, so = ([line for line in one if line not in other] for one, other in ((told, block), (block, told)))
    where = "" if result.wrong else first_that_differs(options, [one for one, _ in before], row)
    result.wrong.append(f"{row}: {wanted} is wanted, and it is {so}{where}")


def first_that_differs(options, before, row):
    """The first of a row's streams or images that comes to something else, with the rows of its device."""
    word, seed, count = row.split(" ")
    rows = [one for one in before if not one.startswith(("streams ", "images "))]
    same, differs = 0, int(count)
    while differs - same > 1:
        middle = (same + differs) // 2
        if is_same(options, [*rows, f"{word} {seed} {middle}"]):
            same = middle
        else:
            differs = middle
    start = max(place for place, one in enumerate(rows) if one.startswith(("zeros ", "file ")))
    return f"; number {differs} of them does, {number_of(played(rows), word, int(seed), differs).hex()}, behind {rows[start:]}"


def played(rows):
    player = Player(FOLDER)
    for row in rows:
        player.play(row)
    return player


def is_same(options, rows):
    """Whether the last row comes to the same."""
    done = told_by(options.store_tests, "\n".join(rows))
    return told_rows(done.stdout, rows[0])[-1] == played(rows[:-1]).play(rows[-1])


def number_of(player, word, seed, number):
    """The bytes of one of a row's streams or images."""
    numbers = Chance(seed)
    for _ in range(number):
        if word == "images":
            some = changed_image(numbers, player.image)
        else:
            some = player.words.stream(numbers)
            pass_pieces(numbers, len(some))
    return some


def play(options):
    """Ten million streams and as many images in the whole, and in quick as many as take some 20 seconds on four processors."""
    with new_folder() as folder:
        library = compiled("hostile_parts/checksum.c", folder)
        result = compare_checksums(library)
        jobs = [(options, word, number, library) for number in range(options.few(20, 500)) for word in ("streams", "images")]
        result.add(spread(play_run, jobs, options.processes))
    result.tell(f"{result.counts['streams']:,} peers' streams, and {result.counts['images']:,} images")
    return result
