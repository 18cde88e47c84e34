"""A spool of otlp-relay that is spoiled while it runs: by whoever has its folder, by a bit that
flips, and by another program's file. And the bound that it keeps after that."""
import pathlib
import tempfile

from lib.harness import compared, guarded
from lib.relay import Far, Relay, answer, is_soon, missing_of, post_of, post_until, status_in
from lib.relay import statuses_of, wait_until
from lib.view import Link

MIB = 1 << 20
SMALL = ["--spool-mb", 1, "--linger", 1]  # such a spool has a new file after some thirty bodies
POSTS = 100  # of these bodies, which are in several files
TORN = b"\x09\0\0"  # the beginning of a record
LATER = answer(503, "Retry-After: 0\r\n")  # what a collector answers that takes nothing yet


def body_at(number, size=4_000):
    """A body of so many bytes and some more."""
    return post_of(number, 1, "x" * size)


def files_of(spool):
    """The files of a spool, the oldest first."""
    return sorted(spool.glob("*.spool"))


def number_of(file):
    """The number of the first body of a file, which its name says."""
    return int(file.name[:20])


class Filled:
    """A relay whose spool has several files, and whose collector takes nothing yet."""

    def __init__(self, program):
        self.folder = tempfile.TemporaryDirectory()
        self.spool = pathlib.Path(self.folder.name, "spool")
        self.far = Far(lambda turn, body: LATER)
        self.relay = Relay(program, self.far.port, "--spool", self.spool, *SMALL)
        self.bodies = [body_at(at) for at in range(POSTS)]
        self.link = Link(self.relay.port)
        self.statuses = statuses_of(self.link, self.bodies)

    def __enter__(self):
        return self

    def __exit__(self, *_):
        self.relay.__exit__()
        self.far.close()
        self.folder.cleanup()

    def begin(self):
        """Has the collector take all."""
        self.far.reply_to = lambda turn, body: answer()


def unread_rows(program):
    """A file that can't be read, which no post finds: it isn't well until the file is back, and
    then all comes."""
    with Filled(program) as it:
        file = files_of(it.spool)[1]
        aside = file.rename(it.spool / "aside")
        file.symlink_to(it.spool / "nothing")
        it.begin()
        it.relay.wait_for_report(b"otlp-relay: the spool failed")
        health = it.relay.ask("GET", "/healthz")[0]
        aside.replace(file)
        found = {*it.statuses}, missing_of(it.far, it.bodies)
        yield from compared([
            ("a file that can't be read: it isn't well", health, 503),
            ("a file that can't be read: all comes once it is back", found, ({200}, 0)),
        ])


def flip(file):
    """Flips a bit in the middle of a file."""
    data = bytearray(file.read_bytes())
    data[len(data) // 2] ^= 1
    file.write_bytes(data)


def is_damage_said(relay, count=1):
    """Whether it was said so often, or is soon, that bytes of the spool are damaged."""
    said = b"of the spool are cut off or damaged"
    return is_soon(lambda: relay.reported.count(said) >= count, 10)


def damaged_rows(program):
    """A bit of a file flips while it runs: it says how many bytes it can't read, and all bodies
    come but for the one that has the bit."""
    with Filled(program) as it:
        flip(files_of(it.spool)[1])
        it.begin()
        it.relay.wait_for_report(b"otlp-relay: the spool is back")
        is_told = is_damage_said(it.relay)
        found = {*it.statuses}, missing_of(it.far, it.bodies)
        yield from compared([
            ("a bit that flips: how much is damaged is said", is_told, True),
            ("a bit that flips: all but its body come", found, ({200}, 1)),
        ])


def again_rows(program):
    """Bits of two files flip one soon after the other: both are said, though that the spool
    failed is said once."""
    with Filled(program) as it:
        first, second = files_of(it.spool)[1:3]
        flip(first)
        has_failed = lambda: b"otlp-relay: the spool failed" in it.relay.reported
        it.far.reply_to = lambda turn, body: LATER if has_failed() else answer()
        told = [is_damage_said(it.relay)]
        flip(second)
        it.begin()
        told.append(is_damage_said(it.relay, 2))
        found = told, missing_of(it.far, it.bodies)
        yield from compared([
            ("two bits that flip within a minute: both are said", found, ([True, True], 2)),
        ])


def foreign_rows(program):
    """A file that another program put where the next one comes: nothing is added to it, and what
    is answered 200 comes."""
    with Filled(program) as it:
        first, second, *_, last = map(number_of, files_of(it.spool))
        foreign = it.spool / f"{last + second - first:020}.spool"
        foreign.write_bytes(TORN)
        later = [body_at(at) for at in range(POSTS, POSTS + 2 * (second - first))]
        statuses = statuses_of(it.link, later)
        is_same = foreign.read_bytes() == TORN
        it.begin()
        found = {*it.statuses, *statuses}, is_same, missing_of(it.far, it.bodies + later)
        yield from compared([("a file that another program put there", found, ({200}, True, 0))])


def bound_rows(program):
    """A spool that failed and is back takes no more than its bound."""
    with tempfile.TemporaryDirectory() as folder, Far(lambda turn, body: LATER) as far:
        spool = pathlib.Path(folder, "spool")
        with Relay(program, far.port, "--spool", spool, *SMALL) as relay:
            relay.post(body_at(1))
            files_of(spool)[-1].unlink()
            wait_until(lambda: relay.post(body_at(2)) == 503, "the spool fails")
            wait_until(lambda: relay.post(body_at(3)) == 200, "the spool is back")
            _, _, found = post_until(Link(relay.port), lambda at: body_at(at + 3, 30_000), 70)
            size = sum(it.stat().st_size for it in spool.iterdir())
            found = found, size <= MIB
        yield from compared([("the bound of a spool that is back", found, ((503, "1"), True))])


def part_rows(program):
    """A full spool of which a part was delivered takes posts, while the others wait."""
    with tempfile.TemporaryDirectory() as folder, Far(lambda turn, body: LATER) as far:
        words = ["--spool", f"{folder}/spool", *SMALL, "--batch-bytes", 1]
        with Relay(program, far.port, *words) as relay:
            link = Link(relay.port)
            taken, body, found = post_until(link, body_at)
            half = len(taken) // 2
            far.reply_to = lambda turn, body: answer() if len(far.taken()) < half else LATER
            later = status_in(link, body)
            kept = relay.stats()["bodies"]["kept"]
            found = found, later, kept >= half // 2
        yield from compared([("a spool of which a part came", found, ((503, "1"), 200, True))])


def spoiled_rows(program):
    """All of these."""
    for part in (unread_rows, damaged_rows, again_rows, foreign_rows, bound_rows, part_rows):
        yield from guarded(part.__name__, part(program))
