"""Trials of `.ci/gateways`: why a receiver refused a message or didn't acknowledge it, and why a sender's message wasn't read."""
import re
import socket
import subprocess

from gateway import REPORT, Receiver, control
from loopback import ANSWERS, LEFT, MESSAGES, same
from pages import got, shown

HEAD = b"\x0bMSH|^~\\&|||||||ACK|R1|P|2.5.1\r"
# What a receiver sends for an acknowledgment, and what is said of it. `None` closes the connection, and `ID` is the message's control id.
ODD = [
    (HEAD + b"MSA|AA|OTHER\r\x1c\r", "its block has another control id"),
    (HEAD + b"MSA|CA|ID\r\x1c\r", "its block has CA in place of AA, AE or AR"),
    (HEAD + b"MSA|CE|ID\r\x1c\r", "its block has CE in place of AA, AE or AR"),
    (HEAD + b"MSA|CR|ID\r\x1c\r", "its block has CR in place of AA, AE or AR"),
    (HEAD + b"MSA|OK|ID\r\x1c\r", "its block has no MSA with AA, AE or AR"),
    (HEAD + b"EVN|AA\r\x1c\r", "its block has no MSA with AA, AE or AR"),
    (b"\x0bACK\r\x1c\r", "its block is no message"),
    (b"\x0b" + b"x" * 1_048_577, "its block is too long"),
    (None, "its connection was closed"),
    (b"HTTP/1.1 400 Bad Request\r\n\r\n", "what came ends no block"),
]
# Contents that are no message, by the number of what is wrong, and the byte of it.
HEADER = b"MSH|^~\\&|A|B|C|D|20260101||ORU^R01|C1|P|2.5.1\r"
UNREAD = [
    (b"", "2"),
    (HEADER + b"PID|\x07\r", "3 in segment 2 at byte %d" % (len(HEADER) + 4)),
    (b"PID|1\r", "4"),
    (b"MSH|^^\\&|A\r", "5"),
    (HEADER + b"NTE|1\r\nno segment\r", "6 in segment 3 at byte %d" % (len(HEADER) + 7)),
    (HEADER + b"NTE|\r" * 10_000, "7"),
]


class Speaker(Receiver):
    """A receiver that sends these bytes for its acknowledgments, and AA from then on."""

    def __init__(self, *replies):
        self.replies = list(replies)
        super().__init__()

    def take(self, line):
        came = b""
        try:
            while piece := line.recv(65536):
                came += piece
                while b"\x1c\r" in came:
                    block, came = came.split(b"\x1c\r", 1)
                    with self.news:
                        self.blocks.append(block + b"\x1c\r")
                        reply = self.replies.pop(0) if self.replies else HEAD + b"MSA|AA|ID\r\x1c\r"
                        self.news.notify_all()
                    line.sendall((reply or b"").replace(b"|ID", b"|" + control(block)))
                    if reply is None or not reply.startswith(b"\x0b"):
                        line.shutdown(socket.SHUT_RDWR)
                        return
        except OSError:
            pass


def not_acknowledged(gateway):
    """What came in place of an acknowledgment is said, and the message comes again over the next connection. One receiver is silent for a minute."""
    gateway.until += 90
    wards = Speaker(*[reply for reply, _ in ODD])
    gateway.play(WARDS=wards, ARCHIVE=Receiver(codes=[b"", b"AA"]))
    gateway.start()
    gateway.answered(gateway.ask(MESSAGES), ANSWERS)
    for number, (_, words) in enumerate(ODD, 1):
        line = rf"receiver WARDS did not acknowledge a message: (.*); it is connected anew"
        same(f"what is said of the answer {number}", words, gateway.wait(line, number)[1])
        gateway.tell("go", "WARDS")
    wards.has([LEFT["WARDS"][0]] * len(ODD) + LEFT["WARDS"], gateway.until)
    gateway.wait("receiver ARCHIVE did not acknowledge a message: nothing came for 60 seconds; it is connected anew")
    gateway.tell("go", "ARCHIVE")
    gateway.receivers["ARCHIVE"].has(LEFT["ARCHIVE"][:1] + LEFT["ARCHIVE"], gateway.until)
    gateway.kill()


def unread(gateway):
    """The log of refusals has what is wrong with a message that can't be read, its segment and its byte. With --keep-unreadable it is kept, however it came."""
    gateway.play(WARDS=Receiver(), ARCHIVE=Receiver())
    blocks = [b"\x0b" + it + b"\x1c\r" for it, _ in UNREAD]
    kept = gateway.folder / "unreadable.mllp"
    gateway.start()
    gateway.ask(blocks)
    stated = [f"NOW session 1 G{number} - AR 207 message refused {words} from PEER" for number, (_, words) in enumerate(UNREAD, 1)]
    same("the log of refusals", stated, gateway.once(stated, gateway.refusals))
    same("whether they are kept", False, kept.exists())
    gateway.stop()
    gateway.start("--keep-unreadable")
    line = gateway.client()
    whole = b"".join(REPORT + it for it in blocks) + REPORT
    for size in (1, 700, 3, 50_000, len(whole)):
        line.send(whole[:size])
        whole = whole[size:]
    answers = line.finish()
    same("MSA-1 of all", [b"AA", b"AR"] * len(blocks) + [b"AA"], [re.search(rb"\rMSA\|(..)", it)[1] for it in answers])
    stated = [words + " from PEER" for _, words in UNREAD]
    same("which lines follow", stated, gateway.once(stated, lambda: [it.split(" message refused ")[1] for it in gateway.refusals()[len(blocks) :]]))
    same("what is kept", b"".join(blocks), kept.read_bytes())
    same("its mode", 0o600, kept.stat().st_mode & 0o777)
    gateway.stop()


def reasons(gateway):
    """What a receiver answers to a message that it refuses is in the log. `status --refused` and the page show its codes, and all of it is shown with --values."""
    strange = b"MSA|AE|ID\rERR||PID^1^5|Quackenbush|E\rERR|||1011|E\rERR|||10\r"
    rejects = b"MSA|AR|ID\nERR|||207|E||||busy\n"
    long = b"MSA|AE|ID|" + b"w" * 4_096 + b"\rERR|||102|E\r"
    plain = b"MSA|AE|ID|no such ward\rERR||PID^1^3|101^Required field missing^HL70357|E\rERR||OBR^2|103|E\r"
    wards = Speaker(*[HEAD + it + b"\x1c\r" for it in (strange, rejects, rejects, rejects, long, plain)])
    gateway.play(WARDS=wards, ARCHIVE=Receiver())
    shown(gateway)
    gateway.answered(gateway.ask(MESSAGES), ANSWERS)
    sent = LEFT["WARDS"]
    wards.has([sent[0], sent[1], sent[1], sent[1], *sent[2:]], gateway.until)
    same("how many were refused", 4, gateway.once(4, lambda: {it["name"]: it["refused"] for it in gateway.status()["receivers"]}["WARDS"]))
    line = r"receiver WARDS answered .*: the message is at place (\d+) of the log in folder"
    places = [gateway.wait(line, number)[1] for number in (1, 2, 3, 4)]

    def refused(*words):
        status, text = gateway.tell("status", "--refused", "WARDS", *words)
        return status, [re.sub(r" \d{4}-\d\d-\d\dT\d\d:\d\d:\d\d\.\d{6}Z ", " TIME ", it) for it in text.splitlines()]

    # (the cut of the long one has no ERR)
    stated = [f"{place} TIME {it}" for place, it in zip(places, ["AE", "AR 207", "AE", "AE 101 103"])]
    same("what lies refused", (0, ["lie refused: 4", *stated]), gateway.once((0, ["lie refused: 4", *stated]), refused))
    came = [(HEAD[1:] + it.replace(b"|ID", b"|" + control(block)))[:4_096].decode() for it, block in zip((strange, rejects, long, plain), sent)]
    lines = [re.split("[\r\n]", it.rstrip("\r\n").replace("\\", "\\\\")) for it in came]
    same("with what it answered", (0, ["lie refused: 4", *(it for first, rest in zip(stated, lines) for it in (first, *rest))]), refused("--values"))
    same("of the archive", (0, "lie refused: 0\n"), gateway.tell("status", "--refused", "ARCHIVE"))
    same("of nobody", (1, "refused: no receiver of the plan has this name\n"), gateway.tell("status", "--refused", "NOBODY"))
    text = got(gateway, "/")[2]
    same("the page's last refusals", ["", "AE 101"], sorted(re.findall(r"<td>\d+</td><td>([^<]*)</td></tr>", text)))
    gateway.stop()
    same("texts of the receiver in its lines and on its page", [], [it for it in ("Quackenbush", "busy", "www", "ward") if it in text + "".join(map(str, gateway.lines))])
    listed = subprocess.run([gateway.program, "log", "folder", "--values"], cwd=gateway.room, capture_output=True, text=True, timeout=20).stdout
    escaped = [it.replace("\\", "\\\\").replace("\r", "\\r").replace("\n", "\\n") for it in came]
    same("what the log has", escaped, re.findall(r"WARDS \(\d\) refused .*, code \d: (.*)", listed))
    gateway.start()
    same("resend", (0, "resent 4\n"), gateway.tell("resend", "WARDS"))
    same("what lies refused then", (0, ["lie refused: 0"]), gateway.once((0, ["lie refused: 0"]), refused))
    gateway.kill()
