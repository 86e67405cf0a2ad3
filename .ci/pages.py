"""What a gateway shows on its page, and what its metrics and its health say. `.ci/gateways` plays these trials."""
import contextlib
import html
import re
import socket
import subprocess
import time

from gateway import REPORT, Receiver, control, logged, noted, numbered
from loopback import ANSWERS, LEFT, MESSAGES, SECRETS, Differs, same


def fetched(gateway, request, wait=10):
    """The status, the head and the body of what the page's server answers to these bytes."""
    with socket.create_connection(("127.0.0.1", gateway.shown), 5) as line:
        line.settimeout(wait)
        line.sendall(request)
        came = b""
        with contextlib.suppress(ConnectionResetError):
            while piece := line.recv(65536):
                came += piece
    head, _, body = came.partition(b"\r\n\r\n")
    return int(head.split(b" ")[1]) if head else None, head.decode(), body.decode()


def got(gateway, path, method="GET"):
    return fetched(gateway, f"{method} {path} HTTP/1.1\r\nHost: x\r\n\r\n".encode())


# HL7 table 0357, as far as the gateway answers it.
TABLE = {"100": "Segment sequence error", "101": "Required field missing", "102": "Data type error", "103": "Table value not found"}
TABLE |= {"200": "Unsupported message type", "201": "Unsupported event code", "202": "Unsupported processing id", "203": "Unsupported version id", "207": "Application internal error"}


def shown(gateway, *words):
    """Starts the gateway with its page, and finds where that is."""
    gateway.start("--status", ":0", *words)
    gateway.shown = int(gateway.wait(r"status at http://127\.0\.0\.1:(\d+)/")[1])


NAME = r"[a-zA-Z_:][a-zA-Z0-9_:]*"


def samples(text):
    """Metrics by Prometheus' text format, version 0.0.4: for each metric a line HELP, a line TYPE, and then its samples, each with other labels."""
    metrics, types, helped, found = [], {}, set(), {}
    if not text.endswith("\n"):
        raise Differs("the last line has no end")
    for line in text.splitlines():
        if it := re.fullmatch(rf"# HELP ({NAME}) .+", line):
            if it[1] in helped:
                raise Differs(f"HELP comes twice: {line}")
            helped.add(it[1])
        elif it := re.fullmatch(rf"# TYPE ({NAME}) (counter|gauge)", line):
            if it[1] in types or it[1] not in helped:
                raise Differs(f"TYPE comes twice, or before HELP: {line}")
            types[it[1]] = it[2]
            metrics.append(it[1])
        elif it := re.fullmatch(rf'({NAME})(?:\{{((?:[a-zA-Z_]\w*="(?:[^"\\\n]|\\[\\"n])*",?)+)\}})? (\d+)', line):
            labels = tuple(sorted(re.findall(r'(\w+)="((?:[^"\\]|\\.)*)"', it[2] or "")))
            if not metrics or it[1] != metrics[-1] or (it[1], labels) in found:
                raise Differs(f"a sample that isn't of the last metric, or comes twice: {line}")
            found[it[1], labels] = int(it[3])
        else:
            raise Differs(f"no line of the format: {line}")
    same("counters whose name doesn't end in _total", [], [it for it, kind in types.items() if (kind == "counter") != it.endswith("_total")])
    return found


def page(gateway):
    """The page, the metrics and the health: what was sent is counted, a refusal is seen without a value or a control id, and a method or path that isn't there is refused."""
    gateway.play(WARDS=Receiver(codes=[b"AE", b"AA"]), ARCHIVE=Receiver())
    shown(gateway)
    for receiver in gateway.receivers.values():
        gateway.wait(f"receiver \\w+ at {receiver.address} connected")
    before = samples(got(gateway, "/metrics")[2])
    gateway.answered(gateway.ask(MESSAGES), ANSWERS)
    for name, receiver in gateway.receivers.items():
        receiver.has(LEFT[name], gateway.until)
    ends = time.monotonic() + 10
    while sum(count for it, count in samples(got(gateway, "/metrics")[2]).items() if it[0] == "hl7gate_acknowledged_total") < sum(map(len, LEFT.values())) and time.monotonic() < ends:
        time.sleep(0.1)
    status, head, text = got(gateway, "/metrics")
    same("the metrics' status and type", (200, True), (status, "content-type: text/plain; version=0.0.4" in head.lower()))
    after = samples(text)
    same("counters that fell", [], [it for it in before if it[0].endswith("_total") and after[it] < before[it]])
    refusals = [it for it in ANSWERS if b"MSA|AA" not in it]
    codes = [logged(it).split()[3] for it in refusals]
    stated = {("hl7gate_accepted_total", ()): len(ANSWERS) - len(refusals), ("hl7gate_sessions_total", ()): 1}
    stated |= {("hl7gate_refused_total", (("code", it),)): codes.count(it) for it in codes}
    for name, aa, ae in ("WARDS", len(LEFT["WARDS"]) - 1, 1), ("ARCHIVE", len(LEFT["ARCHIVE"]), 0):
        of = ("receiver", name)
        stated |= {("hl7gate_sent_total", (of,)): aa + ae, ("hl7gate_due", (of,)): 0, ("hl7gate_receiver_connected", (of,)): 1}
        stated |= {("hl7gate_acknowledged_total", (("code", code), of)): count for code, count in (("AA", aa), ("AE", ae), ("AR", 0))}
    same("what the metrics count", stated, {it: after[it] for it in stated})
    status, head, text = got(gateway, "/")
    same("the page's status and type", (200, True), (status, "content-type: text/html; charset=utf-8" in head.lower()))
    rows = [re.findall(r"<td>(.*?)</td>", it) for it in re.findall(r"<tr>.*?</tr>", text)]
    taken = (len(LEFT["WARDS"]) - 1, 1), (len(LEFT["ARCHIVE"]), 0)
    stated = [["connected", "0", "0", f"{aa + ae}", f"{aa}", f"{ae}", "0"] for aa, ae in taken]
    same("the receivers' rows", sorted(stated), sorted(it[:-2] for it in rows if len(it) == 9))
    told = [[re.sub(r"127\.0\.0\.1:\d+", "PEER", it[2]), *it[3:]] for it in rows if len(it) == 7]
    senders = [noted(*it).split(" from ")[1] for it in zip(MESSAGES, ANSWERS) if it[1] in refusals]
    lines = [logged(it).split() for it in refusals]
    stated = [[who, number, code, f"{condition} {TABLE[condition]}", "".join(place)] for who, (number, _, code, condition, *place) in zip(senders, lines)]
    same("the last refusals", stated[::-1], told)
    version = subprocess.run([gateway.program, "--version"], capture_output=True, text=True).stdout.strip()
    same("version and machine", 1, text.count(f", {version} on {html.escape(socket.gethostname())}. "))
    same("control ids and values on the page", [], [it for it in [control(it).decode() for it in MESSAGES] + list(SECRETS) if it and it in text])
    same("health", (200, "ok"), (lambda it: (it[0], it[2].split("\n")[0]))(got(gateway, "/health")))
    same("HEAD", (200, ""), (lambda it: (it[0], it[2]))(got(gateway, "/", "HEAD")))
    same("another path, and another method", (404, 405, 404), (got(gateway, "/index.html")[0], got(gateway, "/metrics", "POST")[0], got(gateway, "/health/x")[0]))
    same("no request, and one with a body", (400, 413), (fetched(gateway, b"hello\r\n\r\n")[0], fetched(gateway, b"GET / HTTP/1.1\r\nHost: x\r\nContent-Length: 5\r\n\r\nhello")[0]))
    (gateway.room / "other").mkdir()
    words = [gateway.program, "gateway", "plan", "127.0.0.1:0", "other", "--status", f":{gateway.shown}"]
    second = subprocess.run(words, cwd=gateway.room, capture_output=True, text=True, timeout=20)
    same("a page where another one is", (3, ["fault 2", f":{gateway.shown}: can't be listened on"]), (second.returncode, second.stderr.splitlines()[-2:]))
    same("nine thousand bytes of header", 431, fetched(gateway, b"GET / HTTP/1.1\r\nHost: x\r\n" + b"X-Long: " + b"x" * 9000 + b"\r\n\r\n")[0])
    gateway.kill()


def page_hangs(gateway):
    """Clients of the page that send nothing, half a request or a byte now and then have five seconds each. Seven of them delay nobody. Where eight are there, another waits, and a sender doesn't."""
    gateway.play(WARDS=Receiver(), ARCHIVE=Receiver())
    shown(gateway)
    requests = b"", b"GET / HT", b"GET /metrics HTTP/1.1\r\nHost: x\r\n"
    for count in 7, 8:
        with contextlib.ExitStack() as lines:
            for at in range(count):
                lines.enter_context(socket.create_connection(("127.0.0.1", gateway.shown), 5)).sendall(requests[at % 3])
            time.sleep(0.5)
            begun = time.monotonic()
            gateway.answered(gateway.ask([REPORT])[:1], [numbered(gateway.asked)])
            if time.monotonic() - begun > 3:
                raise Differs("a sender waited for the page")
            same("health behind clients that hang", 200, got(gateway, "/health")[0])
            took = time.monotonic() - begun
            if not (took < 2 if count == 7 else 2 < took < 10):
                raise Differs(f"behind {count} clients that hang health took {took:.1f} s")
        gateway.asked += 1
    with socket.create_connection(("127.0.0.1", gateway.shown), 5) as line:
        begun = time.monotonic()
        with contextlib.suppress(OSError):
            while time.monotonic() - begun < 12:
                line.sendall(b"x")
                time.sleep(0.2)
        if not 4 < time.monotonic() - begun < 10:
            raise Differs(f"a client that sends a byte now and then had {time.monotonic() - begun:.1f} s")
        subprocess.run([gateway.program, "tell", "folder", "stop"], cwd=gateway.room, capture_output=True, timeout=20)
    same("its status", 0, gateway.process.wait(20))


def page_when_short(gateway):
    """While the disk is short of room the page says so, and the health is 503. A message that is turned away is counted, and on the page."""
    gateway.play(WARDS=Receiver(), ARCHIVE=Receiver())
    (gateway.folder / "reserve").unlink()
    (gateway.folder / "reserve").symlink_to("/dev/full")
    shown(gateway)
    gateway.wait("the disk is short of room: messages are answered AR until 64 MB are free")
    gateway.ask([REPORT])
    same("health", (503, "the disk is short of room\n"), (lambda it: (it[0], it[2]))(got(gateway, "/health")))
    text = got(gateway, "/")[2]
    same("the page", (1, 1), (text.count('<p class="state bad">the disk is short of room</p>'), text.count("<td>AR</td><td>207 Application internal error</td>")))
    same("the metrics", (1, 1), (lambda it: (it["hl7gate_short_of_room", ()], it["hl7gate_refused_total", (("code", "207"),)]))(samples(got(gateway, "/metrics")[2])))
    gateway.kill()


def page_of_the_down(gateway, seconds=60):
    """A receiver that is down is shown so, and one that acknowledges nothing is connected; after a minute the health is 503, and says of both what is wrong."""
    wards, archive = Receiver(), Receiver(codes=[b""])
    gateway.until += seconds + 10
    gateway.play(WARDS=wards, ARCHIVE=archive)
    wards.close()
    shown(gateway)
    gateway.wait("receiver WARDS can't be connected; it is tried until it is")
    since = time.monotonic()
    gateway.answered(gateway.ask([REPORT]), ANSWERS[:1])
    same("health in the first minute", 200, got(gateway, "/health")[0])
    if not re.search(r">WARDS</th><td><strong>not connected</strong> for \d+ s</td><td>1</td>", got(gateway, "/")[2]):
        raise Differs("the page doesn't show that WARDS is down")
    same("what waits", (1, 0), (lambda it: tuple(it[name, (("receiver", "WARDS"),)] for name in ("hl7gate_due", "hl7gate_receiver_connected")))(samples(got(gateway, "/metrics")[2])))
    while len((status := got(gateway, "/health"))[2].splitlines()) < 2 and time.monotonic() < gateway.until:
        time.sleep(0.5)
    if not seconds - 1 < time.monotonic() - since < seconds + 5:
        raise Differs(f"the health fell after {time.monotonic() - since:.0f} s")
    stated = ["receiver ARCHIVE has taken nothing for N s", "receiver WARDS has not been connected for N s"]
    same("health after a minute", (503, stated), (status[0], sorted(re.sub(r"\d+ s$", "N s", it) for it in status[2].splitlines())))
    gateway.kill()


def page_by_limit(gateway, late=3):
    """`--late`: what waits for longer is reported, and the health says so, of a receiver that is held too. One that closes its idle connection is seen at once, and late behind the limit."""
    wards = Receiver()
    gateway.play(WARDS=wards, ARCHIVE=Receiver())
    for word in "0", "86401", "+3", "x":
        words = [gateway.program, "gateway", "plan", "127.0.0.1:0", "folder", "--late", word]
        done = subprocess.run(words, cwd=gateway.room, capture_output=True, text=True, timeout=20)
        same(f"--late {word}", (2, "error: late is a number from 1 to 86400\n"), (done.returncode, done.stderr))
    shown(gateway, "--late", str(late))
    health = lambda: (lambda it: (it[0], re.sub(r"\d+ s", "N s", it[2])))(got(gateway, "/health"))
    for name, receiver in gateway.receivers.items():
        gateway.wait(f"receiver {name} at {receiver.address} connected")
    same("hold", 0, gateway.tell("hold", "ARCHIVE")[0])
    gateway.answered(gateway.ask([REPORT]), ANSWERS[:1])
    same("health in the first seconds", (200, "ok\n"), health())
    stated = 503, "receiver ARCHIVE has taken nothing for N s; it is held\n"
    same("health of one that is held", stated, gateway.once(stated, health))
    gateway.wait(f"receiver ARCHIVE: 1 wait, the first for more than {late} s")
    same("the page", 1, got(gateway, "/")[2].count('<p class="state bad">receiver ARCHIVE has taken nothing for'))
    same("go", 0, gateway.tell("go", "ARCHIVE")[0])
    same("health behind go", (200, "ok\n"), gateway.once((200, "ok\n"), health))
    gateway.wait(f"receiver ARCHIVE: none waits for more than {late} s any more")
    wards.close()
    since, stated = time.monotonic(), [True, False]
    connected = lambda: [it["connected"] for it in sorted(gateway.status()["receivers"], key=lambda it: it["name"])]
    same("who is connected", stated, gateway.once(stated, connected))
    if time.monotonic() - since > 5:
        raise Differs(f"that an idle connection was closed was seen after {time.monotonic() - since:.1f} s")
    stated = 503, "receiver WARDS has not been connected for N s\n"
    same("health of one that is gone", stated, gateway.once(stated, health))
    wards.open(wards.port)
    same("health in the end", (200, "ok\n"), gateway.once((200, "ok\n"), health))
    gateway.kill()


def page_of_the_refused(gateway):
    """What a receiver refused is in the status, the metrics, the page and the health, over a restart too, until it is sent again. The health stays 200."""
    gateway.play(WARDS=Receiver(codes=[b"AE", b"AA"]), ARCHIVE=Receiver())
    lie = lambda: [it["lie_refused"] for it in sorted(gateway.status()["receivers"], key=lambda it: it["name"])]
    shown(gateway)
    gateway.answered(gateway.ask([REPORT]), ANSWERS[:1])
    # (the last refusal is that since the start)
    for last in "AE", "":
        same("what lies refused", [0, 1], gateway.once([0, 1], lie))
        same("health", (200, "ok\nreceiver WARDS: messages refused and not sent again: 1\n"), (lambda it: (it[0], it[2]))(got(gateway, "/health")))
        text = got(gateway, "/")[2]
        same("the page", 1, text.count('<p class="state">All is well.\nreceiver WARDS: messages refused and not sent again: 1</p>'))
        same("the rows' last cells", [("0", ""), ("1", last)], sorted(re.findall(r"<td>(\d+)</td><td>([^<]*)</td></tr>", text)))
        found = samples(got(gateway, "/metrics")[2])
        same("the metric", [0, 1], [found["hl7gate_refused_messages", (("receiver", it),)] for it in ("ARCHIVE", "WARDS")])
        gateway.stop()
        shown(gateway)
    same("resend", (0, "resent 1\n"), gateway.tell("resend", "WARDS"))
    same("what lies refused then", [0, 0], gateway.once([0, 0], lie))
    same("health then", (200, "ok\n"), (lambda it: (it[0], it[2]))(got(gateway, "/health")))
    gateway.kill()
