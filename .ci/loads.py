"""Trials of a gateway under load: senders that send faster than one takes, that send long messages slowly, or don't take their answers.
Also receivers that change places, and long translations. `.ci/gateways` plays them.
"""
import contextlib
import random
import re
import socket
import struct
import threading
import time
from concurrent.futures import ThreadPoolExecutor

from gateway import REPORT, Receiver, control, numbered
from loopback import ANSWERS, Differs, Line, same
from preload import library_in

# (nobody listens at this address)
NOBODY = "127.0.0.1:1"
HEADER = """segment MSH R 1..1
  field 3 RE 0..1
  field 8 RE 0..1
  field 9 R 1..1
    comp 1 R len 3
    comp 2 R len 3
  field 10 R 1..1 len 20
  field 11 R 1..1
    comp 1 R len 1
  field 12 R 1..1
    comp 1 R len 5
  field 18 RE 0..* len 16
"""
COPY = "segment MSH from MSH\n" + "".join(f"  copy {it} from MSH-{it}\n" for it in (3, 8, 9, 10, 11, 12, 18))


def plan_for(receivers, source=HEADER, target=HEADER, items=COPY):
    """A plan that has each A01 sent to these receivers, by one map."""
    lines = ["plan SMALL", *(f"receiver {name} {address}" for name, address in receivers.items()), "accept version 2.5.1", "accept processing P"]
    lines += ["begin profile", "profile SOURCE", source + "stop", "begin profile", "profile TARGET", target + "stop"]
    lines += ["begin map", "map SMALL from SOURCE to TARGET", items + "stop"]
    return "\n".join([*lines, "route ADT A01 from SOURCE", *(f"  to {name} by SMALL" for name in receivers)]) + "\n"


def message(name, event=b"A01", sender=b"", bulk=b"", more=b""):
    """A message; an answer to it names its sender, and has nothing of the bulk."""
    return b"\x0bMSH|^~\\&|%s|||||%s|ADT^%s|%s|P|2.5.1\r%s\x1c\r" % (sender, bulk, event, name, more)


def burst(gateway, receivers=20, senders=12, each=500):
    """Messages come faster than they are answered, each for many receivers: all are answered AA, and wait for each receiver."""
    (gateway.room / "plan").write_text(plan_for({"R%02d" % it: NOBODY for it in range(receivers)}))
    gateway.start()

    def send(at):
        line, names = gateway.client(), [b"%d-%d" % (at, it) for it in range(each)]
        feeder = threading.Thread(target=line.send, args=(b"".join(map(message, names)),), daemon=True)
        feeder.start()
        answers = [line.block() for _ in names]
        feeder.join(5)
        line.finish()
        return [it for it, answer in zip(names, answers) if b"MSA|AA|%s\r" % it not in (answer or b"")]

    with ThreadPoolExecutor(senders) as pool:
        same("messages that aren't answered AA", [], [it for each in pool.map(send, range(senders)) for it in each])
    same("what waits", [senders * each] * receivers, gateway.waiting())
    gateway.kill()


def many_sessions(gateway, most=10_000, at_once=100):
    """Sessions that send nothing, one after the other: none leaves anything behind."""
    (gateway.room / "plan").write_text(plan_for({"NOBODY": NOBODY}))
    gateway.start()
    gateway.until += 60
    at, now = ("127.0.0.1", gateway.port), struct.pack("ii", 1, 0)
    for done in range(0, most, at_once):
        lines = [socket.create_connection(at, 5) for _ in range(at_once)]
        for line in lines:
            # (so that no port stays in use)
            line.setsockopt(socket.SOL_SOCKET, socket.SO_LINGER, now)
            line.close()
        # (each has two lines)
        with gateway.news:
            gateway.news.wait_for(lambda: len(gateway.lines) >= 2 * done - 500, max(0, gateway.until - time.monotonic()))
    same("an answer", True, b"MSA|AA|M|" in (gateway.ask([message(b"M")])[0] or b"").replace(b"\r", b"|"))
    same("connections that are open", 0, gateway.once(0, lambda: gateway.status()["connections"]))
    gateway.kill()


def slow_messages(gateway, slow=70, most=45):
    """More senders than have a turn send long messages, and none ends its own: whoever sends short ones is answered at once, and memory has a bound.
    Each of the long ones that ends is answered."""
    (gateway.room / "plan").write_text(plan_for({"NOBODY": NOBODY}))
    gateway.start()
    gateway.until += 60
    whole, lines = message(b"SLOW", bulk=b"x" * 900_000), [gateway.client() for _ in range(slow)]
    senders = [threading.Thread(target=it.send, args=(whole[:-3],), daemon=True) for it in lines]
    for sender in senders:
        sender.start()
    time.sleep(3)
    short, since = gateway.client(), time.monotonic()
    for at in range(20):
        same("a short message's answer", True, b"MSA|AA|S%d\r" % at in (short.ask([message(b"S%d" % at)])[0] or b""))
    if time.monotonic() - since > 10:
        raise Differs(f"20 short messages took {time.monotonic() - since:.1f} s")
    size = int(re.search(r"VmRSS:\s+(\d+) kB", open(f"/proc/{gateway.process.pid}/status").read())[1])
    if size > 400_000:
        raise Differs(f"the gateway has {size} kB")
    answered = 0
    for line in lines:
        with contextlib.suppress(OSError):
            line.send(whole[-3:])
    for line in lines:
        with contextlib.suppress(OSError):
            answered += b"MSA|AA|SLOW\r" in (line.block() or b"")
    same("long messages that were answered AA", slow, answered)
    gateway.kill()


def deaf(gateway, most=3):
    """A sender takes none of its answers: the others are answered and plans are swapped in meanwhile. Its session ends after a minute."""
    gateway.until += 30
    gateway.play(WARDS=Receiver(), ARCHIVE=Receiver())
    gateway.start()
    line = gateway.client()
    gateway.answered(line.ask([REPORT]), ANSWERS[:1])
    with socket.socket() as mute:
        mute.setsockopt(socket.SOL_SOCKET, socket.SO_RCVBUF, 4096)
        mute.connect(("127.0.0.1", gateway.port))
        mute.settimeout(1)
        # (each is refused, and its sender's name is long, as it is in the answer)
        block, sent = message(b"M", b"A99", b"x" * 10_000), 0
        try:
            while sent < 2_000:
                mute.sendall(block)
                sent += 1
            raise Differs("its answers were taken")
        except TimeoutError:
            pass
        for _ in range(20):
            since = time.monotonic()
            same("swap", 0, gateway.tell("swap", "plan")[0])
            answer = line.ask([REPORT])[0]
            if time.monotonic() - since > most:
                raise Differs(f"a swap, and an answer, took {time.monotonic() - since:.1f} s")
            same("the answer's code", [b"AA"], re.findall(rb"MSA\|(\w+)\|", answer))
        # (its own time ends it, or the system's, whichever is first)
        gateway.wait("session 2 ended: fault 3: the writer failed")
    gateway.kill()


def long_translation(gateway, results=5_000):
    """A translation of more segments than a message may have is sent as it is, over a restart, and again once its receiver has refused it.
    What comes behind it is sent too."""
    one, far = Receiver(codes=[b"AE", b"AA"]), "segment %s O 0..*\n  field 1 R 1..1\n"
    gateway.receivers = {"ONE": one}
    one.close()
    items = COPY + "".join(f"segment {it} from OBX\n  copy 1 from OBX-1\n" for it in ("OBX", "NTE"))
    (gateway.room / "plan").write_text(plan_for({"ONE": one.address}, HEADER + far % "OBX", HEADER + far % "OBX" + far % "NTE", items))
    blocks = [message(b"LONG", more=b"OBX|1\r" * results), message(b"NEXT")]
    stated = [message(b"LONG", more=b"OBX|1\r" * results + b"NTE|1\r" * results), message(b"NEXT")]
    gateway.start()
    same("codes", [b"AA", b"AA"], [re.search(rb"MSA\|(\w+)", it)[1] for it in gateway.ask(blocks)])
    gateway.kill()
    gateway.start()
    gateway.wait("receiver ONE: 2 messages wait in folder")
    one.open(one.port)
    one.has(stated, gateway.until)
    gateway.wait(r"receiver ONE answered AE: the message is at place \d+ of the log in folder")
    same("resend", (0, "resent 1\n"), gateway.tell("resend", "ONE"))
    one.has([*stated, stated[0]], gateway.until)
    gateway.kill()


def large_translation(gateway, size=900_000):
    """A translation that is longer than a message may be is sent, and again once its receiver has refused it."""
    one = Receiver(codes=[b"AE", b"AA"])
    gateway.receivers = {"ONE": one}
    (gateway.room / "plan").write_text(plan_for({"ONE": one.address}, items=COPY.replace("copy 3 from MSH-3", "copy 3 from MSH-8") + "drop MSH-3\n"))
    gateway.start()
    bulk = b"x" * size
    same("the code", [b"AA"], [re.search(rb"MSA\|(\w+)", it)[1] for it in gateway.ask([message(b"LARGE", bulk=bulk)])])
    stated = message(b"LARGE", sender=bulk, bulk=bulk)
    one.has([stated], gateway.until)
    gateway.wait(r"receiver ONE answered AE: the message is at place \d+ of the log in folder")
    same("resend", (0, "resent 1\n"), gateway.tell("resend", "ONE"))
    one.has([stated, stated], gateway.until)
    gateway.kill()


def routed(receivers, events):
    """A plan that has each event sent to a receiver of its own."""
    head, _ = plan_for(receivers).split("route ")
    return head + "".join(f"route ADT {events[it]} from SOURCE\n  to {it} by SMALL\n" for it in receivers)


def reordered(gateway):
    """Of four receivers one goes at an install, and the others change their order: what waits for each comes to it, and so does what is accepted then."""
    names = ["ONE", "TWO", "THREE", "FOUR"]
    events, receivers = dict(zip(names, ("A01", "A02", "A03", "A04"))), {it: Receiver() for it in names}
    gateway.receivers, addresses = receivers, {name: it.address for name, it in receivers.items()}
    for receiver in receivers.values():
        receiver.close()
    (gateway.room / "plan").write_text(routed(addresses, events))
    (gateway.room / "next").write_text(routed({it: addresses[it] for it in ("FOUR", "ONE", "THREE")}, events))
    gateway.start()
    first, then = ([message(b"%s%d" % (it.encode(), at), events[it].encode()) for it in names] for at in (1, 2))
    gateway.ask(first)
    same("install", (0, "installed 1\n"), gateway.tell("install", "next"))
    gateway.ask(then)
    for receiver in receivers.values():
        receiver.open(receiver.port)
    for name, *stated in zip(names, first, then):
        # (the second is answered AR, once its receiver is gone)
        receivers[name].has(stated[:1] if name == "TWO" else stated, gateway.until)
    gateway.kill()


# Lets no thread begin while the file of NONE is there.
THREADS = r"""
extern long syscall(long, ...);
extern char *getenv(const char *);
extern void *dlsym(void *, const char *);
enum { ACCESS = 21, AGAIN = 11 };
int pthread_create(void *thread, const void *how, void *(*begin)(void *), void *with) {
    int (*create)(void *, const void *, void *(*)(void *), void *) = dlsym((void *)-1L, "pthread_create");
    return syscall(ACCESS, getenv("NONE"), 0L) ? create(thread, how, begin, with) : AGAIN;
}
"""


def no_thread(gateway, closed=3):
    """A connection for which no thread can be started is closed. Sessions, words and receivers go on meanwhile, and a later connection is answered."""
    gateway.play(WARDS=Receiver(), ARCHIVE=Receiver())
    none = gateway.room / "none"
    gateway.start(env={"LD_PRELOAD": str(library_in(gateway.room, "threads", THREADS)), "NONE": str(none)})
    for receiver in gateway.receivers.values():
        gateway.wait(f"receiver \\w+ at {receiver.address} connected")
    line = gateway.client()
    gateway.answered(line.ask([REPORT]), [numbered(1)])
    none.write_text("")
    for at in range(closed):
        answer = b"none yet"
        with contextlib.suppress(ConnectionError):
            answer = gateway.client().block()
        if answer and answer != b"none yet":
            raise Differs(f"a connection without a thread got {answer!r}")
        gateway.answered(line.ask([REPORT]), [numbered(2 + at)])
    gateway.wait("no thread can be started for a connection: it is closed", closed)
    same("swap", (0, "swapped 1\n"), gateway.tell("swap", "plan"))
    same("connections that are open", 1, gateway.status()["connections"])
    none.unlink()
    gateway.answered(gateway.ask([REPORT]), [numbered(2 + closed)])
    for name, receiver in gateway.receivers.items():
        receiver.gets(name, [b"LAB0007"], gateway.until, repeats=closed + 1)
    gateway.kill()


def come_and_go(gateway, seconds=15, seed=1, bulk=0):
    """Three receivers come and go, refuse, are held, and are taken out of the plan and put back, while senders send and the gateway ends again and again.
    In the end each has what was answered AA for it, and nothing of another's, that of one sender in order.
    What came twice was sent again by `resend`, or its connection or the gateway ended meanwhile."""
    chance, names, is_over = random.Random(seed), ["ONE", "TWO", "THREE"], threading.Event()
    events = dict(zip(names, ("A01", "A02", "A03")))
    receivers = {it: Receiver(codes=[*chance.choices([b"AA", b"AE"], [99, 1], k=10_000), b"AA"]) for it in names}
    gateway.receivers, addresses = receivers, {name: it.address for name, it in receivers.items()}
    gateway.until += 2 * seconds
    for path, those in ("plan", names), ("two", ["THREE", "ONE"]), ("one", ["TWO"]):
        (gateway.room / path).write_text(routed({it: addresses[it] for it in those}, events))
    accepted, repeats, down = {it: ([], []) for it in names}, dict.fromkeys(names, 0), set()

    def send(at):
        mine, sent = random.Random(seed + 1 + at), 0
        while not is_over.is_set():
            with contextlib.suppress(OSError), contextlib.closing(gateway.client().socket) as socket_:
                line = Line(socket_, gateway.until)
                while not is_over.is_set():
                    to, sent = mine.choice(names), sent + 1
                    its = b"%c%07d" % (65 + at, sent)
                    answer = line.ask([message(its, events[to].encode(), bulk=b"x" * bulk)])[0]
                    if answer is None:
                        break
                    if b"MSA|AA|%s\r" % its in answer:
                        accepted[to][at].append(its)
                    time.sleep(0.002)
            time.sleep(0.01)

    gateway.start()
    senders = [threading.Thread(target=send, args=(it,), daemon=True) for it in range(2)]
    for sender in senders:
        sender.start()
    ends = time.monotonic() + seconds
    while time.monotonic() < ends:
        time.sleep(chance.uniform(0.02, 0.3))
        word, to = chance.choice(["install", "hold", "go", "go", "resend", "end", "down", "up", "up"]), chance.choice(names)
        if word == "end":
            gateway.kill() if chance.random() < 0.5 else gateway.stop()
            gateway.start("--keep-plan")
            repeats = {name: count + 1 for name, count in repeats.items()}
        elif word == "down" and to not in down:
            receivers[to].close()
            repeats[to] += 1
            down.add(to)
        elif word == "up" and to in down:
            receivers[to].open(receivers[to].port)
            down.remove(to)
        elif word == "install":
            same("install", 0, gateway.tell("install", chance.choice(["plan", "two", "one"]))[0])
        elif word in ("hold", "go", "resend"):
            # (a receiver that the plan lacks may be unknown since the start)
            status, said = gateway.tell(word, to)
            same(f"{word} {to}", True, status == 0 or said == "refused: no receiver of the plan has this name\n")
            if said.startswith("resent "):
                repeats[to] += int(said.split()[1])
    is_over.set()
    for sender in senders:
        sender.join(10)
    for to in down:
        receivers[to].open(receivers[to].port)
    same("install in the end", 0, gateway.tell("install", "plan")[0])
    for to in names:
        same("go in the end", 0, gateway.tell("go", to)[0])
        gateway.ask([message(b"LAST", events[to].encode())])
    for name, receiver in receivers.items():
        with receiver.news:
            receiver.news.wait_for(lambda: receiver.blocks and control(receiver.blocks[-1]) == b"LAST", max(0, gateway.until - time.monotonic()))
        came = [control(it) for it in receiver.blocks]
        once = list(dict.fromkeys(came))
        same(f"the last message of {name}", [b"LAST"], once[-1:])
        others = {it for other in names if other != name for its in accepted[other] for it in its}
        same(f"what {name} got of others", set(), others & set(once))
        for those in accepted[name]:
            its = set(those)
            same(f"what {name} lacks, or has out of order", those, [it for it in once if it in its])
        if len(came) - len(once) > repeats[name]:
            raise Differs(f"{name} got {len(came) - len(once)} messages twice, where {repeats[name]} may come again")
        same(f"whether {name} got any", True, len(once) > 1)
    gateway.kill()
