"""The samples of the documents are what the program answers and prints.

docs/protocol.md has a dialog and a challenge with all their bytes: steps, each with who speaks and a block. What its phone says is sent
to the program, and what its notifier says is compared with what comes. docs/operating.md has blocks of a console: a command behind `$ `
and what it printed. Such a command is run too. Of what differs from run to run, only the form counts: moments, ports, numbers, tags.
"""

import os
import re

from passwords import USERS, challenges, credentials, password_file
from phone import Message, open_socket
from service import KNOWN, SUBSCRIBE, Service, address, next_datagram
from suite import Running, run, same, sip_block, tell

TOP = os.path.dirname(os.path.dirname(os.path.abspath(__file__)))

STEP = re.compile(r"^\*\*\d+\. (Phone|Notifier|Feed)\b[^\n]*\n\n```(?:sip|text)\n(.*?)^```$", re.M | re.S)

CONSOLE = re.compile(r"^```console\n\$ ([^\n]*)\n(.*?)^```$", re.M | re.S)

# What differs from run to run, and what stands in its place where two runs are compared.
FORMS = (
    (r"w\d+-\d+-[0-9a-f]{16}", "TAG"), (r'nonce="[^"]*"', "NONCE"), (r'response="[0-9a-f]*"', "RESPONSE"), (r"\d+\.\d+\.\d+\.\d+:\d+", "ADDRESS"),
    (r"\b\d+\b", "N"),
)


def section(page, heading):
    with open(os.path.join(TOP, "docs", page), encoding="utf-8") as file:
        return file.read().partition(f"\n## {heading}\n")[2].partition("\n## ")[0]


def steps(heading):
    """Of each step of a section who speaks, and what: of a message its bytes, with the line ends of SIP."""
    found = STEP.findall(section("protocol.md", heading))
    assert found, f"docs/protocol.md has no steps under {heading}"
    return [(who, text if who == "Feed" else datagram(text)) for who, text in found]


def datagram(text):
    """The bytes of a message that stands on a page, where the empty line behind its header is left out if no body follows."""
    whole = text if "\n\n" in text else text + "\n"
    return whole.replace("\n", "\r\n").encode()


def form(text):
    for differing, place in FORMS[:-1]:
        text = re.sub(differing, place, text)
    return text


def a_dialog_byte_for_byte(program, folder):
    every = steps("A dialog, byte for byte")
    script = b"".join(text.encode() if who == "Feed" else sip_block(text) for who, text in every if who != "Notifier")
    page = run(program, ["script", "1", "alice"], script).out
    came = []
    while found := re.search(rb"^(?:ANSWER|NOTIFY) .*? (\d+)\n", page, re.M):
        page = page[found.end() :]
        came.append(page[: int(found[1])])
        page = page[int(found[1]) :]
    same("what the notifier says", [text for who, text in every if who == "Notifier"], came)


def a_challenge_byte_for_byte(program, folder):
    (_, challenge), (_, request) = steps("A challenge, byte for byte")
    asked, text = challenges(Message(challenge))[0], request.decode()
    right = credentials(asked, "alice", USERS["alice"], "sip:alice@127.0.0.1")["response"]
    same("the response on the page", [right], re.findall(r'response="(.*?)"', text))
    first = re.sub(r"Authorization: .*\r\n", "", text).replace("CSeq: 2", "CSeq: 1").replace("z9hG4bKb2", "z9hG4bKb1")
    with Service(program, *KNOWN, "--passwords", password_file(folder), "alice") as service:
        with open_socket(("127.0.0.1", service.sip)) as phone:
            phone.send(first.encode())
            came = next_datagram(phone)
            same("the challenge", form(challenge.decode()), form(came.decode()))
            mine = challenges(Message(came))[0]
            told = credentials(mine, "alice", USERS["alice"], "sip:alice@127.0.0.1")
            phone.send(text.replace(asked["nonce"], mine["nonce"]).replace(right, told["response"]).encode())
            same("the answer", "SIP/2.0 200 OK", Message(next_datagram(phone)).first)


def forms(lines):
    """The forms of lines; where one ends with .. what follows is left open."""
    return [re.sub(*FORMS[-1], form(it)) for it in lines]


def matches(what, wanted, came):
    """That lines came of the forms that are wanted."""
    wanted, came = forms(wanted), forms(came)
    cut = [it[: len(want) - 3] + " .." if want.endswith(" ..") else it for want, it in zip(wanted, came)]
    same(what, wanted, cut + came[len(cut) :])


def consoles_of_operating(program, folder):
    with open(os.path.join(TOP, "docs", "operating.md"), encoding="utf-8") as file:
        printed = {command: text.splitlines() for command, text in CONSOLE.findall(file.read())}
    with Service(program, "--workers", "2", "--log-requests", "alice", "bob") as service:
        with Running(os.path.join(TOP, "contrib", "lamp"), [address(service.sip), "alice"]) as lamp:
            lines = [lamp.process.stdout.readline() for _ in range(2)]
            told = tell(program, "--control", address(service.control), "MAIL", "alice", "voice", "2", "8", "0", "2")
            same("the answer to a MAIL line", b"ok\n", told.out)
            lines.append(lamp.process.stdout.readline())
            with open_socket(("127.0.0.1", service.sip)) as phone:
                phone.send(SUBSCRIBE.replace(b"sip:alice@127.0.0.1 SIP", b"sip:carol@127.0.0.1 SIP"))
                next_datagram(phone)
            for command in [it for it in printed if it.startswith("notifyd tell")]:
                words, _, most = command.partition(" | head -")
                ended = tell(program, "--control", address(service.control), *words.split()[2:])
                came = ended.out.decode().rstrip().splitlines()
                matches(command, printed[command], came[: int(most)] if most else came)
            log = service.close().err.decode().splitlines()
            lines += lamp.end().out.splitlines(True)
    matches("what the lamp prints", printed["contrib/lamp 192.0.2.10:5060 alice"], b"".join(lines).decode().splitlines())
    # On a busy machine the lamp asks again, and then is answered again.
    log = [line for line, before in zip(log, [None, *log]) if line != before]
    matches("the log", next(text for command, text in printed.items() if command.startswith("notifyd serve")), log)


def checks():
    yield "a dialog, byte for byte", a_dialog_byte_for_byte
    yield "a challenge, byte for byte", a_challenge_byte_for_byte
    yield "what an operator sees", consoles_of_operating
