"""Services of many threads and of long times: whose spans the collector gets, by which identifiers,
and how large a request is."""
import gzip
import pathlib
import re
import shutil
import subprocess
import tempfile
import time

from lib.harness import TOOL, compared, guarded, run, side_by_side, tried
from lib.http import HOST
from lib.relay import Far, answer, names_in

OTLP = "OTEL_EXPORTER_OTLP_"
STARTS = 64  # of a program: of so many seeds of a byte two are the same, but once in 2,500 times
THREADS = 64  # the most that a service has
BURST = 64  # spans that each thread ends
LARGE = 300_000  # bytes of a body of half as many threads, at least
QUEUE = ["OTEL_BSP_MAX_QUEUE_SIZE=65536"]  # no span is dropped
BATCH = ["OTEL_BSP_MAX_EXPORT_BATCH_SIZE=8192", "OTEL_BSP_SCHEDULE_DELAY=60000"]
COUNTS = re.compile(
    r"(\d+) ended, (\d+) delivered, (\d+) lost, (\d+) dropped, (\d+) left, (\d+) unnamed, "
)
# Time that goes so many times as fast: the monotonic clock, and how long a socket waits.
FAST = 400
CLOCK = r"""
#define _GNU_SOURCE
#include <fcntl.h>
#include <sys/socket.h>
#include <sys/syscall.h>
#include <sys/time.h>
#include <time.h>
#include <unistd.h>
static long long start;
static long long nanos_of(const struct timespec *at) {
    return (long long)at->tv_sec * 1000000000 + at->tv_nsec;
}
__attribute__((constructor)) static void begin(void) {
    struct timespec at;
    syscall(SYS_clock_gettime, CLOCK_MONOTONIC, &at);
    start = nanos_of(&at);
}
int clock_gettime(clockid_t id, struct timespec *at) {
    int found = (int)syscall(SYS_clock_gettime, id, at);
    if (id != CLOCK_MONOTONIC || found != 0) return found;
    long long now = start + (nanos_of(at) - start) * @FAST@;
    at->tv_sec = (time_t)(now / 1000000000), at->tv_nsec = (long)(now % 1000000000);
    return 0;
}
int setsockopt(int link, int level, int name, const void *value, socklen_t size) {
    struct timeval wait;
    if (level == SOL_SOCKET && (name == SO_RCVTIMEO || name == SO_SNDTIMEO)) {
        const struct timeval *all = value;
        long long micros = ((__int128)all->tv_sec * 1000000 + all->tv_usec) / @FAST@;
        wait.tv_sec = (time_t)(micros / 1000000), wait.tv_usec = (long)(micros % 1000000);
        if (micros == 0 && (all->tv_sec || all->tv_usec)) wait.tv_usec = 1;
        close(open("@FILE@", O_CREAT | O_WRONLY, 0600));
        value = &wait;
    }
    return (int)syscall(SYS_setsockopt, link, level, name, value, size);
}
"""
LONGEST = 130_940  # bytes of a variable: the system takes 131,071, with its name (execve(2))
HOUR = 3_600_000  # milliseconds
QUARTER = 900  # seconds


def variables(port, *more):
    """The words that run a program whose collector is at a port."""
    return ["env", "-i", f"{OTLP}ENDPOINT=http://{HOST}:{port}", *more]


def start_rows(program, spans):
    """Programs that are started again have traces of their own."""
    with Far() as far:
        words = [*variables(far.port, f"{OTLP}TIMEOUT=120000"), program]
        statuses = {it[0] for it in side_by_side(lambda _: run(words), range(STARTS))}
        names = far.names()
    found = statuses, len({it for it, _ in names}), len({it for _, it in names})
    yield from compared([(f"{STARTS} starts", found, ({0}, STARTS, spans * STARTS))])


def long_rows(program):
    """A body of more than 256 KiB, by the longest values that variables have, is small in gzip."""
    with Far() as far:
        words = variables(far.port, f"{OTLP}TIMEOUT=120000", f"{OTLP}COMPRESSION=gzip")
        words += [f"OTEL_RESOURCE_ATTRIBUTES=a={'x' * LONGEST}"]
        words += [f"OTEL_SERVICE_NAME={'y' * LONGEST}"]
        status = run([*words, program])[0]
        packed = far.taken()
    sizes = [len(gzip.decompress(it)) for it in packed]
    is_large = len(sizes) == 1 and sizes[0] > 1 << 18
    is_right = status == 0 and is_large and len(packed[0]) < sizes[0] / 2
    yield "long values in gzip", [] if is_right else [
        f"status {status}, {[len(it) for it in packed]} bytes of {sizes}"
    ]


class Ran:
    """A run of the benchmark: a service with so many threads, each of which ends some spans of so
    many attributes; its counts, and what its collector took."""

    def __init__(self, bench, threads, attributes, *more):
        with Far() as far:
            words = variables(far.port, f"{OTLP}TIMEOUT=120000", *QUEUE, *more)
            load = ["setup", str(threads), str(attributes), "0", "0"]
            self.status, printed, self.reported = run([*words, bench, *load])
            self.bodies = far.taken()
        found = COUNTS.search(printed.decode())
        self.counts = tuple(map(int, found.groups())) if found else (printed,)


def thread_rows(bench):
    """Of a service of many threads all spans come, and each has identifiers of its own."""
    ran, ended = Ran(bench, THREADS, 0), THREADS * BURST
    names = [name for body in ran.bodies for name in names_in(body)]
    traces, spans = len({it for it, _ in names}), len({it for _, it in names})
    yield from compared([
        (f"{THREADS} threads: it ends", (ran.status, ran.reported), (0, b"")),
        (f"{THREADS} threads: all spans come", ran.counts, (ended, ended, 0, 0, 0, 0)),
        (f"{THREADS} threads: each span is there", len(names), ended),
        (f"{THREADS} threads: identifiers", (traces, spans), (len(names), len(names))),
    ])


def packed_rows(bench):
    """A large body in gzip is far smaller than without it."""
    ran = Ran(bench, THREADS // 2, 5, f"{OTLP}COMPRESSION=gzip", *BATCH)
    whole = [gzip.decompress(it) for it in ran.bodies]
    packed, size = sum(map(len, ran.bodies)), sum(map(len, whole))
    is_large = max(map(len, whole)) > LARGE
    found = ran.status, is_large, packed < size / 2
    yield "a large body in gzip", [] if found == (0, True, True) else [
        f"status {found[0]}, {packed} bytes of {[len(it) for it in whole]}"
    ]


def hour_rows(program):
    """A reply that comes after a quarter of an hour, where an attempt has an hour, or as long as it
    takes. Time goes faster meanwhile."""
    compiler = shutil.which("gcc") or shutil.which("cc")
    if not compiler:
        print(f"{TOOL}: no attempt has an hour, since there is no C compiler")
        return
    with tempfile.TemporaryDirectory() as folder:
        source, seen = pathlib.Path(folder, "clock.c"), pathlib.Path(folder, "seen")
        text = CLOCK.replace("@FAST@", str(FAST)).replace("@FILE@", str(seen))
        source.write_text(text, encoding="utf-8")
        library = f"{folder}/clock.so"
        subprocess.run([compiler, "-shared", "-fPIC", "-o", library, source], check=True)
        for time_ms in (HOUR, 0):
            words = [f"{OTLP}TIMEOUT={time_ms}", f"LD_PRELOAD={library}", program]
            yield tried(f"an attempt of {time_ms} ms", lambda words=words: slow_faults(words))
        if not seen.exists():
            print(f"{TOOL}: no attempt has an hour: the program has its clock elsewhere")


def slow_faults(words):
    """What is wrong where each reply comes after a quarter of an hour."""

    def reply_to(turn, body):
        time.sleep(QUARTER / FAST)
        return answer()

    with Far(reply_to) as far:
        status, _, reported = run([*variables(far.port), *words])
        if (status, reported, far.turns) != (0, b"", 1):
            yield f"status {status}, {far.turns} attempts, {reported!r}"


def service_rows(program, spans, bench):
    """All of these: of a program with so many spans, and of the benchmark, where it is built."""
    parts = [start_rows(program, spans), hour_rows(program), long_rows(program)]
    parts += [thread_rows(bench), packed_rows(bench)] if bench else []
    if not bench:
        print(f"{TOOL}: without trace_bench, which isn't built")
    for at, part in enumerate(parts):
        yield from guarded(f"part {at} of services", part)
