"""What a relay does with bodies that a collector refuses: whose spans are lost, by which names, and
where these go."""
import pathlib
import tempfile
import time

from lib.relay import Far, Relay, answer, names_in, post_of, wait_until
from lib.relay_door import compare
from lib.wire import number, piece

REFUSED = b"refuse this one"  # a body with these bytes is answered 400


def by_turns(*replies):
    """Answers by these replies, and later by 200."""
    return lambda turn, body: replies[turn] if turn < len(replies) else answer()


def all_names(bodies):
    """The spans of these bodies, by their names, in order."""
    return [name for body in bodies for name in names_in(body)]


def lost_lines(body, reason):
    """The lines of the spans of a body, which are lost for this reason."""
    names = names_in(body)
    return "".join(f"lost {trace} {span} {reason}\n" for trace, span in names).encode()


def refusing(turn, body):
    """Answers a batch with the body that is refused by 400."""
    return answer(400, "", b"", "") if REFUSED in body else answer()


def refused_rows(program):
    """One bad post among ten doesn't take its neighbours along, and its spans are lost by name."""
    with tempfile.TemporaryDirectory() as folder:
        names = pathlib.Path(folder, "names")
        names.write_bytes(b"before\n")
        with Far(refusing) as far, Relay(program, far.port, "--names", names) as relay:
            far.gate.clear()
            relay.post(post_of(100))
            wait_until(lambda: far.turns == 1, "the first batch is out")
            bodies = [post_of(it, 3, "shop") for it in range(1, 11)]
            bodies[6] = post_of(7, 3, REFUSED.decode())
            statuses = {relay.post(body) for body in bodies}
            far.gate.set()
            relay.wait_for_empty()
            sent = far.all_sent()
            yield compare("all are taken", statuses, {200})
            yield compare("first together", (sent[1].body, sent[1].status), (b"".join(bodies), 400))
            yield compare("then alone", [it.body for it in sent[2:]], bodies)
            wanted = all_names(it for it in bodies if REFUSED not in it)
            yield compare("the others come", far.names()[3:], wanted)
            gone, lines = names_in(bodies[6]), lost_lines(bodies[6], "refused 400")
            wait_until(lambda: relay.stats()["spans"]["lost"] == 3, "the names are noted")
            yield compare("the names", names.read_bytes(), b"before\n" + lines)
            listed = [
                {"traceId": trace, "spanId": span, "reason": "refused", "status": 400}
                for trace, span in reversed(gone)
            ]
            yield compare("the list of them", relay.lost(), listed)
            wanted = 0, (11, 10, 1, 0, 33, 30, 3, 0)
            yield compare("the balance", relay.stop(b"x"), wanted)


def lost_rows(program):
    """Why spans are lost, on standard error."""
    # (the last number: how often an empty request asks whose fault it is)
    for words, replies, reason, asked in (
        (["--attempts", 1], [answer(503)], "attempts", 0),
        (["--attempts", 2], [answer(503), answer(429)], "attempts", 0),
        ([], [b"no reply\r\n\r\n"], "bad-reply", 1),
        ([], [answer(413)], "refused 413", 0), ([], [answer(500)], "refused 500", 1),
    ):
        with Far(by_turns(*replies)) as far, Relay(program, far.port, *words) as relay:
            relay.post(post_of(5, 2))
            relay.wait_for_empty()
            relay.wait_for_report(lost_lines(post_of(5, 2), reason))
            wait_until(lambda: relay.stats()["spans"]["lost"] == 2, "they are counted")
            sent = [it.body for it in far.all_sent()]
            wanted = [post_of(5, 2)] * len(replies) + [b""] * asked
            yield compare(f"{reason}: so many attempts", sent, wanted)
            yield compare(f"{reason}: the balance", relay.stop(), (0, (1, 0, 1, 0, 2, 0, 2, 0)))


UNREAD = 1_500  # spans of a body, whose names are more than a pipe takes (64 KiB)
PIPED = 65_536 // 64  # lines of names that are in it at most
UNREAD_WITHIN = 5  # seconds within which something comes that waits for a reader one at most


def unread_rows(program):
    """Standard error that nobody reads holds up neither posts, nor what is sent, nor the stop."""
    for name, is_spooled in (("unread", False), ("unread, with a spool", True)):
        with tempfile.TemporaryDirectory() as folder, Far(refusing) as far:
            words = ["--spool", f"{folder}/spool"] if is_spooled else []
            with Relay(program, far.port, *words, is_read=False) as relay:
                yield from unread_faults(name, relay, far)
    with Far(refusing) as far, Relay(program, far.port, is_read=False) as relay:
        relay.post(post_of(1, UNREAD, REFUSED.decode()))
        wait_until(lambda: relay.stats()["unwrittenNames"] > 0, "names are counted")
        yield compare("unread: a refusal", relay.post(b"no request"), 400)
        time.sleep(0.5)  # (the line on it comes after the answer)
        relay.read()
        relay.ask("GET", "/nothing")
        relay.wait_for_report(b"\notlp-relay: lines that nobody read are missing here: 1\n")
        relay.wait_for_report(b"otlp-relay: answered 404")


def unread_faults(name, relay, far):
    """A run whose standard error is read once it has ended."""
    bodies = [post_of(it, UNREAD, REFUSED.decode()) for it in range(1, 4)]
    begun = time.monotonic()
    yield compare(f"{name}: posts", [relay.post(it) for it in bodies], [200] * 3)
    yield compare(f"{name}: one that is refused", relay.post(b"no request"), 400)
    yield compare(f"{name}: one that is taken", relay.post(post_of(4)), 200)
    wait_until(lambda: post_of(4) in far.taken(), "it is sent", 30)
    relay.wait_for_empty()
    yield within(f"{name}: it is sent", begun)
    unwritten, most = relay.stats()["unwrittenNames"], len(bodies) * UNREAD
    is_right = most - PIPED <= unwritten <= most
    yield f"{name}: names are counted", [] if is_right else [f"{unwritten} of {most}"]
    yield compare(f"{name}: names are lost", relay.stats()["spans"]["lost"], most)
    begun = time.monotonic()
    yield compare(f"{name}: the stop", relay.stop(), (1, (4, 1, 3, 0, most + 3, 3, most, 0)))
    yield within(f"{name}: the stop", begun)


def within(name, begun):
    """Whether this took a few seconds at most."""
    took = time.monotonic() - begun
    return f"{name}, in time", [] if took < UNREAD_WITHIN else [f"in {took:.2f} s"]


def partial_rows(program):
    """A partial success ends a batch, and its text is reported."""
    body = piece(1, number(1, 2) + piece(2, b"two are old"))
    with Far(by_turns(answer(200, "", body))) as far, Relay(program, far.port) as relay:
        relay.post(post_of(5))
        relay.wait_for_report(b"otlp-relay: a batch was taken in part: ")
        relay.wait_for_report(b"two are old")
        yield compare("one attempt", len(far.all_sent()), 1)
        wait_until(lambda: relay.stats()["rejectedSpans"] == 2, "the rejected ones are counted")
        # (the balance: two spans are received, and neither delivered nor lost)
        yield compare("the balance", relay.stop(), (0, (1, 1, 0, 0, 3, 1, 0, 0)))
