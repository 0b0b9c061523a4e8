"""Images at random, with fixed seeds, each opened by `pfd show` and some by `pfd run`, and compared with the plain reading of docs/DISK.md.

They are made of the example of that page, of files that the program left behind sessions at random, and of snapshots and groups that stand in
no file of the program's, good ones and strange ones; by changing up to four bytes, cutting, doubling, swapping banks, and random bytes.
`pfd show` has to print what the reading finds, or its refusal and place. `pfd run` has to refuse what the page says, or to answer every
question by what the reading finds, and to leave the very bytes that the page says an opening leaves. Each limit on how much is kept has an
image, and one past it another.

What is chosen at random may miss a byte that matters; of the example each byte is tried. A file of a gibibyte isn't made.
"""
import itertools
import os

from . import reading, writing
from .forms import Former, limits
from .lines import QUESTIONS
from .lines import session_of as line_session
from .model import Session
from .program import Result, bytes_of, chance, formatted, new_folder, ran, spread, write

SIZES = (256, 300, 300, 300, 512, 600, 1024, 2048, 4096)
BYTES = (0, 1, 2, 3, 4, 5, 6, 7, 8, 16, 17, 32, 64, 0x7F, 0x80, 0xA5, 0xFF)
EXAMPLE = bytes.fromhex("a50300000000000000000000000000010000001800000000000000000000000000000000000000000000000000000000a500000006010700000001")
# the same as a program of before wrote it, but for the version's byte
OLDER_EXAMPLE = bytes.fromhex("a5010000000000000000000000000001000000100000000000000000000000000000000000000000a500000006010700000001")


class Starter:
    """Starts the program again and again at little cost: what it prints goes to a file in memory."""

    def __init__(self, program):
        self.program, self.out, self.place = program, os.memfd_create("told"), 0
        nothing = os.open("/dev/null", os.O_RDONLY)
        self.actions = [(os.POSIX_SPAWN_DUP2, nothing, 0), (os.POSIX_SPAWN_DUP2, self.out, 1), (os.POSIX_SPAWN_DUP2, self.out, 2)]

    def told(self, *words):
        """The status, and what is written, be it output or faults."""
        pid = os.posix_spawn(self.program, [self.program, *words], os.environ, file_actions=self.actions)
        status = os.waitstatus_to_exitcode(os.waitpid(pid, 0)[1])
        said = os.pread(self.out, 1 << 16, self.place)
        self.place += len(said)
        return status, said.decode("latin-1")


# What images are made of


def left_by_lines(options, random, folder, number):
    """A file behind some sessions of the program, of lines that are mostly good."""
    size = random.choice(SIZES)
    file = formatted(options.program, os.path.join(folder, f"left{number}"), size)
    for _ in range(random.randrange(1, 4)):
        session = Session(size // 2)
        lines, _ = line_session(random, random.randrange(60), session)
        ran(options.program, "run", "--disk", file, given=b"\n".join(lines))
    return bytes_of(file)


def of_snapshot(random, image):
    """What another image holds as a snapshot of its own, in either bank, perhaps with no room behind it."""
    try:
        found = reading.read(image)
    except reading.Refusal:
        return image
    some = reading.snapshot(found.held)
    half = reading.HEADER + len(some) + random.choice((1, 2, 11, 12, 64, 75, 76, 300))
    half = max(half, 128)
    made, start = bytearray(2 * half), random.choice((0, half))
    generation, version = random.choice((1, 2, found.generation, reading.MOST_GENERATION)), random.choice(reading.VERSIONS)
    writing.put_at(made, start, writing.bank_bytes(generation, some, version))
    return bytes(made)


def in_version(image, version):
    """What another image holds and an older version allows, as a snapshot of that version on a device as large."""
    held = reading.read(image).held
    held.tick = 0
    for name, state in list(held.states.items()):
        held.put_state(name, state._replace(expiry=0))
    if version < reading.LABELS_FROM:
        for path, forms in list(held.rulesets.items()):
            held.put_rules(path, [form for form in forms if not reading.rule_of(form).label])
    some = reading.snapshot(held)
    return writing.bank_bytes(1, some[:4] + some[12:], version).ljust(len(image), b"\0")


# Changes of images


def used(image):
    """Some places that mean something: headers, and what stands before the closed gate."""
    half = len(image) // 2
    try:
        found = reading.read(image)
        return [*range(found.start, found.gate + 7), *range(half - found.start, half - found.start + reading.HEADER)]
    except reading.Refusal:
        return [*range(min(60, len(image))), *range(half, min(half + 60, len(image)))]


def with_bytes(random, image, places):
    image = bytearray(image)
    for _ in range(random.choice((1, 1, 1, 2, 3, 4))):
        place = random.choice(places) if random.randrange(8) else random.randrange(len(image))
        if place < len(image):
            old = image[place]
            near = old ^ 1 << random.randrange(8), (old + 1) % 256, (old - 1) % 256
            image[place] = random.choice((*near, random.choice(BYTES), random.randrange(256)))
    return bytes(image)


def with_other_shape(random, image, places):
    """Cut, doubled, with its banks swapped or one copied over the other, with some of its bytes doubled, dropped or at random."""
    half, how = len(image) // 2, random.randrange(8)
    one, other = image[:half], image[half:]
    place = random.choice(places)
    if how == 0:
        return image[: random.randrange(len(image) + 1)]
    if how == 1:
        return image + image
    if how == 2:
        return other + one
    if how == 3:
        return one + one
    if how == 4:
        return other + other
    count = random.choice((1, 2, 4, 20, 34))
    if how == 5:
        return (image[:place] + image[place : place + count] + image[place:])[: len(image)]
    if how == 6:
        return (image[:place] + image[place + count :]).ljust(len(image), b"\0")
    return image[:place] + random.randbytes(count) + image[place + count :]


def changed(random, image, places):
    how = random.randrange(20)
    if how == 0:
        return image
    if how == 1:
        return of_snapshot(random, image)
    if how < 5:
        return with_other_shape(random, image, places)
    made = with_bytes(random, image, places)
    return with_other_shape(random, made, places) if how == 5 else made


# Comparing


def wanted(image):
    said = reading.shown(image)
    return int(said[0].startswith("pfd: ")), "".join(f"{line}\n" for line in said)


def compare_run(options, file, image, result):
    """The opening, all questions, and the bytes that are left."""
    write(file, image)
    status, said, faults = ran(options.program, "run", "--disk", file, given="\n".join(QUESTIONS).encode())
    refused = reading.refused(image)
    if refused is not None:
        result.compare(f"run on {image.hex()}", (1, b"", f"pfd: {refused}\n".encode(), image), (status, said, faults, bytes_of(file)))
        return
    after, held = writing.opened(image), reading.read(image).held
    held.epoch += 1
    session = Session(len(image) // 2, held=held)
    replies = "".join(f"{line}\n" for question in QUESTIONS for line in session.reply(question.encode()))
    nearly_full = writing.Gauge(len(image) // 2).lines(held).encode()
    result.compare(f"run on {image.hex()}", (0, replies, nearly_full), (status, said.decode("latin-1"), faults))
    result.check(f"run on {image.hex()}: other bytes are left than docs/DISK.md says", bytes_of(file) == after)


def bases_of(options, random, folder):
    """Images that are then changed."""
    start = EXAMPLE + bytes(300 - len(EXAMPLE))
    row = writing.edit_bytes(4, b"", b"t", [bytes([4, 8, 0, 0, 10]) + bytes(15)])
    table = writing.saved(start, [row])
    switched = writing.saved(writing.saved(table, [row]), [row])
    left = [left_by_lines(options, random, folder, number) for number in range(12)]
    older = [OLDER_EXAMPLE[:1] + bytes([version]) + OLDER_EXAMPLE[2:] + bytes(size - len(OLDER_EXAMPLE)) for version in (1, 2) for size in (300, 2048)]
    older += [in_version(image, version) for version in (1, 2) for image in left[:4]]
    return [start, table, switched, *older, *left, *(made_of_forms(Former(random)) for _ in range(12))]


def made_of_forms(former):
    return former.snapshot_image() if former.random.randrange(3) == 0 else former.groups_image()


def play_images(job):
    """Images that are changed again and again, each time from one of the bases."""
    options, number, count = job
    random, result = chance(options.seed, "images", number), Result()
    with new_folder() as folder:
        bases = [(image, used(image)) for image in bases_of(options, random, folder)]
        file, starter, former = os.path.join(folder, "disk"), Starter(options.program), Former(random)
        for turn in range(count):
            image = changed(random, *random.choice(bases)) if random.randrange(3) else made_of_forms(former)
            write(file, image)
            should, told = wanted(image), starter.told("show", "--disk", file)
            result.check(f"image {turn} of job {number}, {image.hex()}: {should} is wanted, and it is {told}", told == should)
            if turn % 20 == 0:
                compare_run(options, file, image, result)
            if turn % 500 == 499:
                bases[random.randrange(3, len(bases))] = (made := made_of_forms(former), used(made))
    return result


def each_byte(job):
    """Each place of the example that is written, with each byte that there is."""
    options, number, step = job
    result = Result()
    start = EXAMPLE + bytes(300 - len(EXAMPLE))
    with new_folder() as folder:
        file, starter = os.path.join(folder, "disk"), Starter(options.program)
        for place, byte in itertools.islice(itertools.product([*range(53), 150, 165], range(256)), number, None, step):
            image = start[:place] + bytes([byte]) + start[place + 1 :]
            write(file, image)
            result.compare(f"the example with {byte:02x} at {place}", wanted(image), starter.told("show", "--disk", file))
    return result


def play_limits(options):
    result = Result()
    with new_folder() as folder:
        file, starter = os.path.join(folder, "disk"), Starter(options.program)
        for name, image in limits():
            write(file, image)
            result.compare(name, wanted(image), starter.told("show", "--disk", file))
    return result


def play(options):
    result = play_limits(options)
    if not options.is_quick:
        result.add(spread(each_byte, [(options, number, options.processes) for number in range(options.processes)], options.processes))
    each, rounds = options.few((1_500, 8), (5_000, 20))
    result.add(spread(play_images, [(options, number, each) for number in range(rounds)], options.processes))
    result.tell(f"{each * rounds:,} images at random")
    return result
