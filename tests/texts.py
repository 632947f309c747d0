#!/usr/bin/env python3
"""The dearest texts of each kind: one piece that stands as often as there is room for it.

Each is made at a datagram's greatest length and handed to the program, in the place of a line of a good SUBSCRIBE, behind its
lines, or as a datagram, a script or a control line of its own. What comes out says how it is read: the number of an UNREAD line,
or what the SUBSCRIBE is answered (`docs/protocol.md` has the order of the refusals).

    tests/texts.py TIMES [PROGRAM]

measures instead: each text is handed in a script as often as it fits there, at half its length and at the whole, each script
so often; a script, and a control line that is none, stand once, a script at half its greatest length and at the whole. A line has
the least time of one text at either length, in microseconds of processor time, and how many hundredths of the one the other is: 200
where the time rises as the length does, 400 where it rises as its square.
"""

import resource
import sys
from collections import namedtuple

from calls import BAD_SCRIPT, line_at_udp
from suite import LONG_LIMIT, brief, ended_with, run, same, sip_block

# The lines of a SUBSCRIBE that is answered by a 200, by the places that a text may take.
USUAL = {
    "first": b"SUBSCRIBE sip:alice@127.0.0.1 SIP/2.0\r\n",
    "Via": b"Via: SIP/2.0/UDP 10.0.0.9:5070;branch=z9hG4bKa1\r\n",
    "From": b"From: <sip:alice@127.0.0.1>;tag=f1\r\n",
    "To": b"To: <sip:alice@127.0.0.1>\r\n",
    "Call-ID": b"Call-ID: c1\r\n",
    "CSeq": b"CSeq: 1 SUBSCRIBE\r\n",
    "Contact": b"Contact: <sip:alice@10.0.0.9:5070>\r\n",
    "Event": b"Event: message-summary\r\n",
}

SOURCE = "10.0.0.9:5070"

# Places that are none of these.
BEHIND, DATAGRAM, SCRIPT, CONTROL = "behind", "datagram", "script", "control"

# The greatest lengths of a datagram, of one that the network carries, and of a script.
LENGTH, CARRIED, SCRIPT_LENGTH = 65_535, 65_507, 1_048_576

# A text: what it is, its place, what stands first, again and again, and last, and what comes of it.
Kind = namedtuple("Kind", "name place front piece back wanted")

TOLD = "200 OK"
NOT_SIP, BAD_LINE, MISSING, TWICE = "UNREAD 1 1", "UNREAD 1 2", "UNREAD 1 3", "UNREAD 1 4"
BAD_REQUEST, NOT_ACCEPTABLE, BAD_EXTENSION, BAD_EVENT = (
    "400 Bad Request", "406 Not Acceptable", "420 Bad Extension", "489 Bad Event",
)

TEXTS = [
    Kind("Via values", BEHIND, b"Via: SIP/2.0/UDP a", b",SIP/2.0/UDP a", b"", TOLD),
    Kind("Via lines", BEHIND, b"X:", b"\r\nv:SIP/2.0/UDP a", b"", TOLD),
    Kind("parameters of a Via", BEHIND, b"Via: SIP/2.0/UDP a", b";a", b"", TOLD),
    Kind("quoted parameters of a Via", BEHIND, b"Via: SIP/2.0/UDP a", b';a="b"', b"", TOLD),
    Kind("blanks in a Via", BEHIND, b"Via: SIP/2.0/UDP", b" ", b"a", TOLD),
    Kind("folds of a Via", BEHIND, b"Via: SIP/2.0/UDP a", b"\r\n ;a", b"", TOLD),
    Kind("commas of a Via", BEHIND, b"Via: SIP/2.0/UDP a", b",", b"", BAD_LINE),
    Kind("parameters of the top Via", "Via", b"Via: SIP/2.0/UDP a", b";a", b"", TOLD),
    Kind("received parameters of the top Via", "Via", b"Via: SIP/2.0/UDP a", b";received=1", b"", TOLD),
    Kind("rport parameters of the top Via", "Via", b"Via: SIP/2.0/UDP a", b";rport", b"", TOLD),
    Kind("quoted received parameters of the top Via", "Via", b"Via: SIP/2.0/UDP a", b' ; received="1"', b"", TOLD),
    Kind("parameters of From", "From", b"From: <sip:a@b>;tag=f", b";a", b"", TOLD),
    Kind("tags of From", "From", b"From: <sip:a@b>", b";tag=f", b"", BAD_LINE),
    Kind("words of a display name", "From", b"From: ", b"a ", b"<sip:a@b>", TOLD),
    Kind("escapes in a display name", "From", b'From: "', b'\\"', b'" <sip:a@b>', TOLD),
    Kind("a display name that never ends", "From", b'From: "', b"a", b"", BAD_LINE),
    Kind("From lines", BEHIND, b"X:", b"\r\nf:<sip:a@b>", b"", TWICE),
    Kind("zeros of a CSeq", "CSeq", b"CSeq: ", b"0", b"1 SUBSCRIBE", TOLD),
    Kind("zeros of a Content-Length", BEHIND, b"Content-Length: ", b"0", b"", TOLD),
    Kind("Content-Length lines", BEHIND, b"X:", b"\r\nl:0", b"", TWICE),
    Kind("Require values", BEHIND, b"Require: a", b",a", b"", BAD_EXTENSION),
    Kind("Require lines", BEHIND, b"X:", b"\r\nRequire:a", b"", BAD_EXTENSION),
    Kind("commas of Require", BEHIND, b"Require: ", b",", b"", BAD_LINE),
    Kind("commas in a quote that never ends", BEHIND, b'Require: "', b",", b"", BAD_LINE),
    Kind("Record-Route values", BEHIND, b"Record-Route: <sip:a>", b",<sip:a>", b"", TOLD),
    Kind("brackets that never end", BEHIND, b"Record-Route: ", b"<sip:a,", b"", BAD_LINE),
    Kind("Contact values", "Contact", b"Contact: <sip:a@b>", b",<sip:a@b>", b"", BAD_REQUEST),
    Kind("Contact lines", "Contact", b"X:", b"\r\nm:<sip:a@b>", b"", BAD_REQUEST),
    Kind("quotes of a Contact", "Contact", b"Contact: ", b'""', b"", BAD_REQUEST),
    Kind("a Contact quote that never ends", "Contact", b'Contact: "', b"a,", b"", BAD_REQUEST),
    Kind("question marks of a bare URI", BEHIND, b"Refer-To: sip:a", b"?", b"", TOLD),
    Kind("question marks of a bare URI of a Contact", "Contact", b"Contact: sip:a", b"?", b"", BAD_REQUEST),
    Kind("Accept ranges", BEHIND, b"Accept: a/b", b",a/b", b"", NOT_ACCEPTABLE),
    Kind("Accept lines", BEHIND, b"X:", b"\r\nAccept:a/b", b"", NOT_ACCEPTABLE),
    Kind("an Accept quote that never ends", BEHIND, b'Accept: a/b;x="', b",", b"", BAD_REQUEST),
    Kind("Event parameters", "Event", b"Event: a", b";x=1", b"", BAD_EVENT),
    Kind("Event lines", "Event", b"X:", b"\r\no:a", b"", BAD_REQUEST),
    Kind("continuation lines", BEHIND, b"X: a", b"\r\n a", b"", TOLD),
    Kind("blank continuation lines", BEHIND, b"X: a", b"\r\n ", b"", TOLD),
    Kind("one long header", BEHIND, b"X: ", b"a", b"", TOLD),
    Kind("a quote that never ends", BEHIND, b'X: "', b"a", b"", TOLD),
    Kind("blanks of a header", BEHIND, b"X:", b" ", b"", TOLD),
    Kind("headers of one byte", BEHIND, b"X:", b"\r\na:", b"", TOLD),
    Kind("lines of one byte without a colon", BEHIND, b"X:", b"\r\na", b"", BAD_LINE),
    Kind("carriage returns in a header", BEHIND, b"X: ", b"\r", b"", BAD_LINE),
    Kind("a body", BEHIND, b"X:\r\n\r\n", b"a", b"", TOLD),
    Kind("a method", DATAGRAM, b"", b"A", b" sip:a@b SIP/2.0\r\nX:\r\n\r\n", MISSING),
    Kind("a request URI", DATAGRAM, b"OPTIONS sip:", b"a", b" SIP/2.0\r\nX:\r\n\r\n", MISSING),
    Kind("a reason", DATAGRAM, b"SIP/2.0 200 ", b"a", b"\r\nX:\r\n\r\n", MISSING),
    Kind("no line end", DATAGRAM, b"", b"a", b"", NOT_SIP),
    Kind("line ends alone", DATAGRAM, b"", b"\r\n", b"", NOT_SIP),
    Kind("spaces in the first line", DATAGRAM, b"OPTIONS", b" ", b"\r\n\r\n", NOT_SIP),
    Kind("parameters of an Event text", "Event", b"Event: message-summary", b";x=1", b"", TOLD),
    Kind("ids of an Event text", "Event", b"Event: message-summary", b";id=1", b"", BAD_REQUEST),
    Kind("ranges of an Accept text", BEHIND, b"Accept: a/b", b",a/b", b",application/*", TOLD),
    Kind("quoted parameters of an Accept text", BEHIND, b"Accept: */*", b';x=","', b"", TOLD),
    Kind("an Accept value that never ends", BEHIND, b'Accept: */*;x="', b",", b"", BAD_REQUEST),
    Kind("empty datagrams of a script", SCRIPT, b"", b"SIP 1.1.1.1:1 0\n\n", b"", "WORKER 0 0 0 closed"),
    Kind("mail lines of a script", SCRIPT, b"", b"MAIL a voice 1 0 0 0\n", b"", "WORKER 0 3120 0 closed"),
    Kind("progress lines of a script", SCRIPT, b"", b"PROGRESS a 200 \n", b"", "WORKER 0 4095 0 closed"),
    Kind("ticks of a script", SCRIPT, b"", b"TICK 1\n", b"", "WORKER 0 9362 0 closed"),
    Kind("a line of a script that is none", SCRIPT, b"", b"a", b"\n", "bad script"),
    Kind("a word of a script", SCRIPT, b"MAIL ", b"a", b" voice 1 0 0 0\n", "WORKER 0 1 0 closed"),
    Kind("spaces of a script", SCRIPT, b"MAIL", b" ", b"\n", "bad script"),
    Kind("digits of a script", SCRIPT, b"TICK ", b"0", b"\n", "bad script"),
    Kind("a mailbox of a control line", CONTROL, b"MAIL ", b"a", b" voice 1 0 0 0", "an event"),
    Kind("a reason of a control line", CONTROL, b"PROGRESS a 200 ", b"a", b"", "an event"),
    Kind("a control line that is none", CONTROL, b"", b"a", b"", "no event"),
]

# What a piece of the top Via is in the answer, where it isn't as it came; behind all stands where the request came from.
ANSWERED_PIECES = {b";received=1": b"", b";rport": b";rport=5070", b' ; received="1"': b""}


def frame(place):
    """What stands before and behind a text at this place."""
    if place in (DATAGRAM, SCRIPT, CONTROL):
        return b"", b""
    names = list(USUAL)
    at = names.index(place) if place in USUAL else len(names)
    behind = names[at + 1 :]
    return b"".join(USUAL[name] for name in names[:at]), b"\r\n" + b"".join(USUAL[name] for name in behind) + b"\r\n"


def pieces_for(kind, length):
    """How many pieces there is room for within this length."""
    before, behind = frame(kind.place)
    return (length - len(before) - len(kind.front) - len(kind.back) - len(behind)) // len(kind.piece)


def text_of(kind, length):
    """The text of this kind, within this length."""
    before, behind = frame(kind.place)
    return before + kind.front + kind.piece * pieces_for(kind, length) + kind.back + behind


def script_of(kind, text):
    """A script in which the text stands once."""
    if kind.place == SCRIPT:
        return text
    return text + b"\n" if kind.place == CONTROL else sip_block(text, SOURCE)


def page_in_brief(kind):
    """What comes of a datagram or a script."""
    if kind.wanted == TOLD:
        return ["WORKER 0 1 2 closed", TOLD, "NOTIFY 1 active;expires=3600"]
    if kind.wanted.startswith("UNREAD"):
        return [kind.wanted, "WORKER 0 0 0 closed"]
    if kind.wanted.startswith("WORKER"):
        unread = pieces_for(kind, LENGTH) if kind.piece.startswith(b"SIP") else 0
        return [*(f"UNREAD {number} 1" for number in range(1, unread + 1)), kind.wanted]
    return ["WORKER 0 1 1 closed", kind.wanted]


def reads(kind):
    """A check that a datagram or a script is read as it should be."""

    def check(program, _):
        ended = run(program, [], script_of(kind, text_of(kind, LENGTH)), limit=LONG_LIMIT)
        if kind.wanted == "bad script":
            return same("its end", BAD_SCRIPT, ended)
        ended_with(ended, 0, ended.out, b"")
        same("the page in brief", page_in_brief(kind), brief(ended.out))
        if kind.place == "Via":
            piece = ANSWERED_PIECES.get(kind.piece, kind.piece)
            via = kind.front + piece * pieces_for(kind, LENGTH) + b";received=10.0.0.9\r\n"
            same("the Via of the answer", via, ended.out[ended.out.index(b"Via: ") :][: len(via)])

    return check


def checks():
    for kind in TEXTS:
        if kind.place == CONTROL:
            yield kind.name, line_at_udp(text_of(kind, CARRIED), kind.wanted == "an event")
        else:
            yield kind.name, reads(kind)


def time_of(program, script, times):
    """The least processor time in seconds that the program takes for this script, of so many runs."""
    least = float("inf")
    for _ in range(times):
        before = resource.getrusage(resource.RUSAGE_CHILDREN)
        run(program, [], script, limit=LONG_LIMIT)
        behind = resource.getrusage(resource.RUSAGE_CHILDREN)
        least = min(least, behind.ru_utime + behind.ru_stime - before.ru_utime - before.ru_stime)
    return least


def time_of_one(program, kind, length, times):
    """The processor time in microseconds that one text of this length takes beyond an empty script."""
    script = script_of(kind, text_of(kind, length))
    # What makes a script bad is the last that is read of it.
    stands_alone = kind.place == SCRIPT or kind.wanted == "no event"
    count = 1 if stands_alone else SCRIPT_LENGTH // len(script)
    spent = time_of(program, script * count, times) - time_of(program, b"", times)
    return max(spent, 1e-6) * 1e6 / count


def measure(times, program):
    """Measures each text at half its length and at the whole."""
    for kind in TEXTS:
        whole_length = SCRIPT_LENGTH if kind.place == SCRIPT else LENGTH
        half = time_of_one(program, kind, whole_length // 2, times)
        whole = time_of_one(program, kind, whole_length, times)
        print(f"{kind.name}: {half:.0f}, {whole:.0f}, {100 * whole / half:.0f}", flush=True)


if __name__ == "__main__":
    measure(int(sys.argv[1]), sys.argv[2] if len(sys.argv) > 2 else "crates/notifyd/out/notifyd")
