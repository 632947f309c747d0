"""Thousands of phones on some sockets of this machine, in a thread of their own. Each subscribes once, sends its SUBSCRIBE again until it is
answered, answers each NOTIFY by 200, and never asks for more time. Those that are dead answer nothing."""

import re
import selectors
import socket
import threading
import time

# Sockets, each with an address of its own, and phones that may wait for their first NOTIFY at once.
SOCKETS, AT_ONCE = 64, 100

# Seconds behind which a SUBSCRIBE is sent again, and for which something is heard until that is looked at.
AGAIN, TURN = 1.0, 0.05

ROOM = 1 << 22

# The lines of a NOTIFY that its answer repeats.
REPEATED = re.compile(rb"(?m)^(?:Via|From|To|Call-ID|CSeq): .*\r\n")


class Multitude:
    """Phones of these mailboxes; to be used in a `with`, `at` a service's port of 127.0.0.1."""

    def __init__(self, mailboxes):
        self.mailboxes, self.port, self.sockets = list(mailboxes), None, []
        self.tags, self.notifies, self.dead, self.refused = {}, {}, set(), 0
        self.asked, self.told, self.is_over = {}, set(), False
        self.thread = threading.Thread(target=self.run, daemon=True)

    def opened(self, number):
        opened = socket.socket(socket.AF_INET, socket.SOCK_DGRAM)
        opened.setsockopt(socket.SOL_SOCKET, socket.SO_RCVBUF, ROOM)
        opened.bind((f"127.64.0.{number + 1}", 0))
        opened.connect(("127.0.0.1", self.port))
        opened.setblocking(False)
        return opened

    def at(self, port):
        self.port = port
        return self

    def __enter__(self):
        self.sockets = [self.opened(number) for number in range(min(SOCKETS, len(self.mailboxes)))]
        self.thread.start()
        return self

    def __exit__(self, *_):
        self.is_over = True
        self.thread.join()
        for it in self.sockets:
            it.close()

    def address(self, phone):
        return "{}:{}".format(*self.sockets[phone % len(self.sockets)].getsockname())

    def await_all(self, seconds):
        """Waits until each of them was told its first NOTIFY. The seconds that it took."""
        began = time.monotonic()
        while len(self.told) < len(self.mailboxes):
            if time.monotonic() - began > seconds:
                raise AssertionError(f"{len(self.told)} of {len(self.mailboxes)} phones were told something within {seconds} seconds; {self.refused} were refused")
            time.sleep(0.1)
        return time.monotonic() - began

    def run(self):
        selector = selectors.DefaultSelector()
        for it in self.sockets:
            selector.register(it, selectors.EVENT_READ)
        next_phone, looked = 0, time.monotonic()
        while not self.is_over:
            while next_phone < len(self.mailboxes) and next_phone - len(self.told) < AT_ONCE:
                self.ask(next_phone)
                next_phone += 1
            for key, _ in selector.select(TURN):
                self.hear(key.fileobj)
            if time.monotonic() - looked > AGAIN:
                looked = time.monotonic()
                for phone in [phone for phone, asked in self.asked.items() if looked - asked > AGAIN]:
                    self.ask(phone)
        selector.close()

    def ask(self, phone):
        self.asked[phone] = time.monotonic()
        me, mailbox = self.address(phone), self.mailboxes[phone]
        self.say(self.sockets[phone % len(self.sockets)], "\r\n".join([
            f"SUBSCRIBE sip:{mailbox}@127.0.0.1 SIP/2.0", f"Via: SIP/2.0/UDP {me};branch=z9hG4bK{phone}", "Max-Forwards: 70",
            f"From: <sip:{mailbox}@127.0.0.1>;tag=f{phone}", f"To: <sip:{mailbox}@127.0.0.1>", f"Call-ID: {phone}", "CSeq: 1 SUBSCRIBE",
            f"Contact: <sip:{mailbox}@{me}>", "Event: message-summary", "Content-Length: 0", "", "",
        ]).encode())

    @staticmethod
    def say(own, octets):
        try:
            own.send(octets)
        except OSError:
            pass  # as if it were lost

    def hear(self, own):
        """Takes in what waits at a socket, but no more than some of it, so that others are heard too."""
        for _ in range(64):
            try:
                octets = own.recv(65535)
            except OSError:
                return
            phone = int(re.search(rb"\r\nCall-ID: (\d+)\r\n", octets)[1])
            if octets.startswith(b"NOTIFY "):
                self.hear_notify(own, phone, octets)
            else:
                self.asked.pop(phone, None)
                self.refused += not octets.startswith(b"SIP/2.0 200 ")

    def hear_notify(self, own, phone, notify):
        if phone in self.dead:
            return
        self.tags[phone] = re.search(rb"\r\nFrom: .*;tag=(\S+)\r\n", notify)[1].decode()
        self.notifies[phone] = self.notifies.get(phone, 0) + 1
        self.told.add(phone)
        self.say(own, b"SIP/2.0 200 OK\r\n" + b"".join(REPEATED.findall(notify)) + b"Content-Length: 0\r\n\r\n")
