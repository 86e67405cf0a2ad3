"""A service of the program on loopback, with its clients and its receivers, and what each of them gets. `.ci/services` plays with it.

The bytes that are stated are those of examples/cases/hospital_day: its messages, its answers, and what it leaves for each receiver.
"""
import contextlib
import os
import re
import socket
import subprocess
import threading
import time
from pathlib import Path

TOP = Path(__file__).resolve().parents[1]
DAY = TOP / "examples/cases/hospital_day"
PLAN = (TOP / "examples/hospital.plan").read_text()
BLOCK = re.compile(rb"\x0b.*?\x1c\r", re.S)
MESSAGES, ANSWERS = (BLOCK.findall(it.read_bytes()) for it in (DAY, DAY.with_suffix(".stdout")))
LEFT = {name: BLOCK.findall((DAY.with_suffix(".left") / f"{name}.mllp").read_bytes()) for name in ("WARDS", "ARCHIVE")}
# Words of the messages that no line may show: of patients, their kin and their results.
SECRETS = {it for line in re.findall(rb"(?:PID|NK1|OBX|NTE)\|[^\r]*", DAY.read_bytes()) for it in re.findall(r"[A-Za-z0-9]{5,}", line.decode())}
SECONDS = 20


class Differs(Exception):
    """Something isn't as stated."""


def same(what, stated, got):
    if stated != got:
        raise Differs(f"{what}\n  stated: {stated!r}\n  was:    {got!r}")


def same_blocks(what, stated, got):
    same(f"{what}: how many blocks", len(stated), len(got))
    for at, pair in enumerate(zip(stated, got), 1):
        same(f"{what}: block {at}", *pair)


def stamp():
    # (gmtime alone asks a coarser clock than the program does, which may be a tick behind)
    return time.strftime("%Y%m%d%H%M%S", time.gmtime(time.time())).encode()


def told_once(since, answer, numbered=True):
    """An answer without its stamp, which is a time since then, and without its number, where that isn't stated."""
    parts = answer.split(b"|")
    if len(parts) > 9 and re.fullmatch(rb"\d{14}", parts[6]) and since <= parts[6] <= stamp():
        parts[6] = b"NOW"
    if len(parts) > 9 and not numbered and re.fullmatch(rb"G[1-9]\d*", parts[9]):
        parts[9] = b"G"
    return b"|".join(parts)


def stated_once(answer, numbered=True):
    parts = answer.split(b"|")
    return b"|".join([*parts[:6], b"NOW", *parts[7:9], parts[9] if numbered else b"G", *parts[10:]])


class Line:
    """A connection: what is written to it, and the blocks that come."""

    def __init__(self, socket_, until):
        self.socket, self.until, self.came = socket_, until, b""

    def piece(self):
        self.socket.settimeout(max(0.01, self.until - time.monotonic()))
        piece = self.socket.recv(65536)
        self.came += piece
        return piece

    def look(self):
        """Takes what has come already, and waits for nothing."""
        self.socket.setblocking(False)
        with contextlib.suppress(BlockingIOError):
            self.came += self.socket.recv(65536)

    def send(self, text):
        self.socket.settimeout(max(0.01, self.until - time.monotonic()))
        self.socket.sendall(text)

    def block(self):
        """The next block; None where the line ends before one."""
        while not (found := BLOCK.match(self.came)):
            if not self.piece():
                return None
        self.came = self.came[found.end() :]
        return found[0]

    def ask(self, messages):
        """Sends each of these blocks when what was sent before is answered, and gives the answers."""
        return [self.send(it) or self.block() for it in messages]

    def finish(self):
        """Sends nothing more, and gives the blocks that come up to the end of the line."""
        self.socket.shutdown(socket.SHUT_WR)
        while self.piece():
            pass
        self.socket.close()
        same("what stands in no block", b"", BLOCK.sub(b"", self.came))
        return BLOCK.findall(self.came)


class Receiver:
    """A receiver: it takes one connection, and answers each block with the next of its codes, and with `control`, where there is one, for the control id,
    or each by `reply`. It answers none before `free` is set, and closes at the block of number `last`."""

    def __init__(self, until, last=0, free=True, codes=(b"AA",), control=None, reply=None):
        self.until, self.last, self.codes, self.control, self.reply, self.blocks, self.rest = until, last, codes, control, reply, [], b""
        self.news, self.here, self.free, self.gone = threading.Condition(), threading.Event(), threading.Event(), threading.Event()
        if free:
            self.free.set()
        self.listener = socket.create_server(("127.0.0.1", 0))
        self.address = "127.0.0.1:%d" % self.listener.getsockname()[1]
        threading.Thread(target=self.take, daemon=True).start()

    def take(self):
        with contextlib.suppress(OSError):
            line = Line(self.listener.accept()[0], self.until)
            self.here.set()
            while (block := line.block()) and len(self.blocks) + 1 != self.last:
                with self.news:
                    self.blocks.append(block)
                    self.news.notify_all()
                self.free.wait(max(0, self.until - time.monotonic()))
                line.look()
                if line.came:
                    break
                line.send(self.reply or self.acknowledgment(block))
            self.rest = line.came
            line.socket.close()
        self.gone.set()

    def acknowledgment(self, block):
        at, control = len(self.blocks), self.control or re.split(rb"[|\r]", block)[9]
        return b"\x0bMSH|^~\\&|||||||ACK|R%d|P|2.5.1\rMSA|%s|%s\r\x1c\r" % (at, self.codes[(at - 1) % len(self.codes)], control)

    def wait(self, count):
        """Waits until this many blocks came."""
        with self.news:
            self.news.wait_for(lambda: len(self.blocks) >= count, max(0, self.until - time.monotonic()))

    def has(self, what, stated):
        self.wait(len(stated))
        same_blocks(what, stated, list(self.blocks))


class Trial:
    """One service with all who have to do with it, in a folder of its own, and the time that it has."""

    def __init__(self, program, room):
        self.program, self.room, self.until, self.since = program, room, time.monotonic() + SECONDS, stamp()
        self.process, self.receivers, self.told, self.news = None, {}, {"out": [], "err": []}, threading.Condition()

    def play(self, **receivers):
        """Receivers by their names, each with the words of its kind."""
        self.receivers = {name: Receiver(self.until, **kind) for name, kind in receivers.items()}
        return self.receivers.values()

    def plan(self, file, text=PLAN):
        """Makes a file of the plan, with the receivers that are played and no others."""

        def played(line):
            name = line[2]
            return "" if name not in self.receivers else f"receiver {name} {self.receivers[name].address}\n" if line[1] == "receiver" else line[0]

        Path(self.room, file).write_text(re.sub(r"(?m)^(receiver|  to) (\w+) .*\n", played, text))
        return file

    def channel(self, named):
        """Standard input of a service, a pipe or a named one, and what is written to."""
        if not named:
            return os.pipe()
        fifo = Path(self.room, "swaps")
        os.mkfifo(fifo)
        # (so that neither waits for the other)
        speaks = os.open(fifo, os.O_RDWR)
        return os.open(fifo, os.O_RDONLY), speaks

    def start(self, *words, source=subprocess.DEVNULL, before=None):
        """Starts the service; `before` is called in its process, before the program is."""
        self.told, how = {"out": [], "err": []}, {"cwd": self.room, "text": True, "errors": "replace", "preexec_fn": before}
        streams = {"stdin": source, "stdout": subprocess.PIPE, "stderr": subprocess.PIPE}
        self.process = subprocess.Popen([self.program, "serve", *words], **streams, **how)
        self.readers = [threading.Thread(target=self.listen, args=it, daemon=True) for it in (("out", self.process.stdout), ("err", self.process.stderr))]
        for reader in self.readers:
            reader.start()

    def listen(self, name, stream):
        for line in stream:
            with self.news:
                self.told[name].append(line.rstrip("\n"))
                self.news.notify_all()

    def wait(self, name, pattern):
        """The first line of this form, once it is printed."""
        told = self.told[name]
        first = lambda: next(filter(None, (re.fullmatch(pattern, it) for it in told)), None)
        with self.news:
            if not self.news.wait_for(first, max(0, self.until - time.monotonic())):
                raise Differs(f"no line {pattern!r} was told in time; was: {told}")
            return first()

    def serve(self, sessions, workers, **kind):
        """Starts a service by the hospital's plan, and waits until it listens and its receivers are connected."""
        self.start(self.plan("plan"), "127.0.0.1:0", str(sessions), str(workers), **kind)
        self.port = int(self.wait("err", r"listening on 127\.0\.0\.1:(\d+)")[1])
        for name, it in self.receivers.items():
            self.wait("err", f"receiver {name} at {it.address} connected")

    def connect(self):
        return Line(socket.create_connection(("127.0.0.1", self.port), max(0.01, self.until - time.monotonic())), self.until)

    def client(self, number):
        """A client, when it has become the session of this number."""
        line = self.connect()
        self.wait("err", rf"session {number} from 127\.0\.0\.1:{line.socket.getsockname()[1]}")
        return line

    def answered(self, got, stated=tuple(ANSWERS), numbered=True):
        same_blocks("answers", [stated_once(it, numbered) for it in stated], [told_once(self.since, it or b"", numbered) for it in got])

    def end(self, status, out, err, sent=LEFT):
        """Waits for the end, and compares what was sent and what was printed: the lines of each session and receiver in their order, and a fault last of all."""
        try:
            self.process.wait(max(0.01, self.until - time.monotonic()))
        except subprocess.TimeoutExpired:
            raise Differs(f"the service didn't end in time; told: {self.told}") from None
        for reader in self.readers:
            reader.join(1)
        for secret in SECRETS:
            same(f"lines that tell {secret} of a message", [], [it for lines in self.told.values() for it in lines if secret in it])
        about = lambda line: line.split()[:2]
        stated, got = ([re.sub(r"\b127\.0\.0\.1:\d+", "ADDRESS", it) for it in lines] for lines in (err, self.told["err"]))
        same("standard output", out, self.told["out"])
        same("standard error", sorted(stated, key=about), sorted(got, key=about))
        same("a fault is told last", [it for it in stated[-1:] if it.startswith("fault")], [it for it in got[-1:] if it.startswith("fault")])
        same("status", status, self.process.returncode)
        for name, it in self.receivers.items():
            it.listener.shutdown(socket.SHUT_RDWR)
            it.gone.wait(1)
            same_blocks(f"what {name} was sent", sent[name], it.blocks)
            same(f"what {name} was sent besides", b"", it.rest)
