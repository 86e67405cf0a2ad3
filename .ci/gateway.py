"""A gateway of the program in a folder, with its receivers, the lines that it prints, and its log. `.ci/gateways` plays with it."""
import contextlib
import json
import re
import signal
import socket
import subprocess
import threading
import time
from pathlib import Path

from loopback import ANSWERS, BLOCK, MESSAGES, PLAN, SECRETS, Differs, Line, same, same_blocks, stamp, stated_once, told_once

SECONDS = 60
# How many bytes of the disk a gateway keeps free.
RESERVE = 64 << 20
REPORT = MESSAGES[0]
LISTENS = r"listening on 127\.0\.0\.1:(\d+)"


def control(block):
    return re.split(rb"[|\r]", block)[9]


def numbered(number):
    """The answer to the report under this number."""
    return ANSWERS[0].replace(b"|G1|", b"|G%d|" % number)


def logged(answer):
    """What the log of refusals says of an answer: its number, the message's control id, the code, the condition and the place."""
    header, acknowledged, error = (it.split(b"|") for it in answer.strip(b"\x0b\x1c\r").split(b"\r"))
    place = [error[2]] if error[2] else []
    control = acknowledged[2] if len(acknowledged) > 2 else b"-"
    return b" ".join([header[9], control, acknowledged[1], error[3].split(b"^")[0], *place]).decode()


def sender_of(message):
    """Who sent a message: by the connection, and by MSH-3 and MSH-4."""
    name, place = message.split(b"|")[2:4]
    return f" from PEER {name.decode()}|{place.decode()}"


def noted(message, answer, reason=""):
    """The line of an answer but its time and session. Behind what `logged` says comes the reason of a 207, and who sent the message, by MSH-3 and MSH-4 too, where these could be read."""
    line = logged(answer)
    return line + reason + (" from PEER" if line.split()[1] == "-" else sender_of(message))


def refused_that_day():
    """What the log of refusals says of the day: of each answer but AA. The sixth message has a byte that no message has."""
    refused = [(*it, "") for it in zip(MESSAGES, ANSWERS) if b"MSA|AA" not in it[1]]
    content = MESSAGES[5][1:-2]
    at = re.search(rb"[\x00-\x08\x0b\x0c\x0e-\x1f]", content).start()
    segment = content[:at].count(b"\r") + 1
    refused[2] = (*refused[2][:2], f" message refused 3 in segment {segment} at byte {at}")
    return [noted(*it) for it in refused]


class Receiver:
    """A receiver that takes one connection after another, and keeps what came. It acknowledges each block by the next of its codes, the last of them for ever.
    `None` closes the connection instead, and an empty one says nothing. Where it `closes`, it ends its connection behind each acknowledgment."""

    def __init__(self, codes=(b"AA",), port=0, closes=False):
        self.closes = closes
        self.codes, self.blocks, self.news, self.held = list(codes), [], threading.Condition(), None
        self.open(port)

    def open(self, port=0):
        self.listener = socket.create_server(("127.0.0.1", port))
        if self.held:
            self.held.close()
            self.held = None
        self.port = self.listener.getsockname()[1]
        self.address, self.lines = "127.0.0.1:%d" % self.port, []
        threading.Thread(target=self.accept, args=(self.listener,), daemon=True).start()

    def close(self):
        """Is gone: nobody listens, and each connection ends. No other process is given the port."""
        with contextlib.suppress(OSError):
            self.listener.shutdown(socket.SHUT_RDWR)
        self.listener.close()
        if not self.held:
            self.held = socket.socket()
            self.held.setsockopt(socket.SOL_SOCKET, socket.SO_REUSEADDR, 1)
            self.held.bind(("127.0.0.1", self.port))
        for line in self.lines:
            with contextlib.suppress(OSError):
                line.shutdown(socket.SHUT_RDWR)

    def accept(self, listener):
        with contextlib.suppress(OSError):
            while True:
                line = listener.accept()[0]
                line.setsockopt(socket.IPPROTO_TCP, socket.TCP_NODELAY, 1)
                self.lines.append(line)
                threading.Thread(target=self.take, args=(line,), daemon=True).start()

    def take(self, line):
        came = b""
        with contextlib.suppress(OSError):
            while piece := line.recv(65536):
                came += piece
                while found := BLOCK.match(came):
                    came = came[found.end() :]
                    with self.news:
                        self.blocks.append(found[0])
                        code = self.codes.pop(0) if len(self.codes) > 1 else self.codes[0]
                        self.news.notify_all()
                    if code is None:
                        line.close()
                        return
                    if not code:
                        continue
                    line.sendall(b"\x0bMSH|^~\\&|||||||ACK|R|P|2.5.1\rMSA|%s|%s\r\x1c\r" % (code, control(found[0])))
                    if self.closes:
                        line.shutdown(socket.SHUT_RDWR)
                        line.close()
                        return

    def has(self, stated, until):
        with self.news:
            self.news.wait_for(lambda: len(self.blocks) >= len(stated), max(0, until - time.monotonic()))
        same_blocks("what a receiver got", stated, list(self.blocks))

    def gets(self, name, stated, until, repeats=0):
        """Gets messages with these control ids, in this order, and at most as many of them twice."""
        with self.news:
            self.news.wait_for(lambda: self.blocks and control(self.blocks[-1]) == stated[-1], max(0, until - time.monotonic()))
            came = [control(it) for it in self.blocks]
        same(f"the messages that {name} got", stated, list(dict.fromkeys(came)))
        if len(came) - len(stated) > repeats:
            raise Differs(f"{name} got {len(came) - len(stated)} messages twice, where at most {repeats} may come again")


class Gateway:
    """A gateway by the hospital's plan in a folder, its receivers, and the lines that it printed."""

    def __init__(self, program, room):
        self.program, self.room, self.until, self.since = program, Path(room), time.monotonic() + SECONDS, stamp()
        self.folder, self.process, self.port, self.receivers, self.lines = self.room / "folder", None, 0, {}, []
        self.shown, self.asked = 0, 1
        self.folder.mkdir()
        # (so that not each trial writes it; `full_disk` has the gateway make it)
        with open(self.folder / "reserve", "wb") as reserve:
            reserve.truncate(RESERVE)

    def play(self, **receivers):
        self.receivers = receivers
        text = re.sub(r"(?m)^receiver (\w+) .*$", lambda it: f"receiver {it[1]} {receivers[it[1]].address}", PLAN)
        (self.room / "plan").write_text(text)

    def start(self, *words, waits=True, env=None):
        self.lines, self.news, self.is_read = [], threading.Condition(), False
        words = [self.program, "gateway", "plan", f"127.0.0.1:{self.port}", "folder", *words]
        self.process = subprocess.Popen(words, cwd=self.room, stderr=subprocess.PIPE, text=True, errors="replace", env=env)
        self.reader = threading.Thread(target=self.listen, args=(self.process.stderr, self.lines), daemon=True)
        self.reader.start()
        if waits:
            self.port = int(self.wait(LISTENS)[1])

    def listen(self, stream, lines):
        for line in stream:
            with self.news:
                lines.append(line.rstrip("\n"))
                self.news.notify_all()
        with self.news:
            self.is_read = True
            self.news.notify_all()

    def found(self, pattern):
        return [it for it in (re.fullmatch(pattern, line) for line in self.lines) if it]

    def wait(self, pattern, times=1):
        """The last line of this form, once it has come as often."""
        with self.news:
            if not self.news.wait_for(lambda: len(self.found(pattern)) >= times, max(0, self.until - time.monotonic())):
                raise Differs(f"{len(self.found(pattern))} lines {pattern!r} came in time; came: {self.lines}")
            return self.found(pattern)[times - 1]

    def is_up(self):
        """Whether it comes to listen; else it has ended."""
        with self.news:
            self.news.wait_for(lambda: self.found(LISTENS) or self.is_read, max(0, self.until - time.monotonic()))
        for found in self.found(LISTENS):
            self.port = int(found[1])
        return bool(self.found(LISTENS))

    def kill(self):
        self.process.send_signal(signal.SIGKILL)
        self.process.wait()
        self.reader.join(1)
        for secret in SECRETS:
            same(f"lines with {secret} of a message", [], [it for it in self.lines if secret in it])

    def stop(self):
        """Is stopped by the word: what its receivers acknowledged is on the disk then."""
        same("stop", (0, "stops: what waits is sent by the next start\n"), self.tell("stop"))
        same("its status", 0, self.process.wait(20))
        self.reader.join(1)

    def close(self):
        """Whatever came of it, nothing of it goes on."""
        if self.process:
            self.process.kill()
            self.process.wait()
        for receiver in self.receivers.values():
            receiver.close()

    def ends(self, status, lines):
        """It ends by itself, and these are its last lines."""
        self.process.wait(max(0.01, self.until - time.monotonic()))
        self.reader.join(1)
        same("its last lines", lines, self.lines[-len(lines) :])
        same("its status", status, self.process.returncode)

    def client(self):
        return Line(socket.create_connection(("127.0.0.1", self.port), 5), self.until)

    def ask(self, messages):
        line = self.client()
        return line.ask(messages) + line.finish()

    def answered(self, got, stated):
        same_blocks("answers", [stated_once(it) for it in stated], [told_once(self.since, it or b"") for it in got])

    def once(self, stated, look):
        """What is seen, once it is as stated, or in the end."""
        while (seen := look()) != stated and time.monotonic() < self.until:
            time.sleep(0.05)
        return seen

    def status(self):
        return json.loads(self.tell("status", "--json")[1])

    def waiting(self):
        """How many wait for each receiver, by their names."""
        return [it["waiting"] for it in sorted(self.status()["receivers"], key=lambda it: it["name"])]

    def refusals(self):
        """The lines of its log of refusals, with NOW for the time and PEER for the address of the sender's connection."""
        return [re.sub(r" from 127\.0\.0\.1:\d+", " from PEER", re.sub(r"^\d{14} ", "NOW ", it)) for it in (self.folder / "refusals.log").read_text().splitlines()]

    def tell(self, *line):
        """A word to the gateway: its status, and its lines with no address."""
        ran = subprocess.run([self.program, "tell", "folder", *line], cwd=self.room, capture_output=True, text=True, timeout=20)
        return ran.returncode, re.sub(r"127\.0\.0\.1:\d+", "ADDRESS", ran.stdout + ran.stderr)
