"""Trials of a gateway whose log has a past: other plans, what lies refused, plans that it refuses, another's folder, clocks. `.ci/gateways` plays them.

The files of logs are made by log_files.py, and not by the program.
"""
import os
import re
import shutil
import subprocess
import threading
import time

from disks import BESIDE, NOW, begun, fill, lay, report, small_disk
from gateway import REPORT, RESERVE, Receiver, control, refused_that_day
from loads import message, plan_for, routed
from log_files import TAKEN, accepted, again, chain, margin, name, named, passed, planned, refused, state
from loopback import ANSWERS, LEFT, MESSAGES, Differs, same
from preload import library_in


def codes(answers):
    return [re.search(rb"MSA\|(\w+)", it or b"MSA|none")[1] for it in answers]


def ran(gateway, *words):
    """A start that comes to no end of its own but a refusal: its status and its lines."""
    done = subprocess.run([gateway.program, "gateway", "plan", "127.0.0.1:0", "folder", *words], cwd=gateway.room, capture_output=True, text=True, timeout=20)
    return done.returncode, done.stderr


def unsendable(gateway):
    """A message that can't be read, or that its plan has no route for, can't be translated. Its receiver isn't sent it: it lies refused, and the next is sent."""
    gateway.play(WARDS=Receiver(), ARCHIVE=Receiver())
    lost = [accepted(NOW, 1, [1], b"no message"), accepted(NOW, 2, [1], message(b"X", b"A99")[1:-2])]
    lay(gateway, chain([[*begun(gateway), *lost, report(3, [1])]]))
    gateway.start()
    gateway.wait("receiver WARDS: 3 messages wait in folder")
    gateway.receivers["WARDS"].has(LEFT["WARDS"][:1], gateway.until)
    for place in 4, 5:
        gateway.wait(rf"receiver WARDS isn't sent the message at place {place} of the log in folder: .*")
    same("refused", [0, 2], [it["refused"] for it in sorted(gateway.status()["receivers"], key=lambda it: it["name"])])
    gateway.kill()


def repeated(gateway):
    """A log in which a refused message is due once more, under an older plan than the one in force: it is sent as its own plan has it, behind what came before."""
    gateway.play(WARDS=Receiver(), ARCHIVE=Receiver())
    text = (gateway.room / "plan").read_bytes()
    older = text.replace(b"build 12 const 2.5.1", b"build 12 const 2.5")
    same("that the plans differ", True, older != text)
    records = [*begun(gateway, older), report(1, [2]), passed(NOW, 2, 4, refused(1, b"")), planned(NOW, text), report(2, [2]), again(NOW, 2, 4), report(3, [2])]
    lay(gateway, chain([records]))
    gateway.start()
    gateway.wait("receiver ARCHIVE: 3 messages wait in folder")
    first = LEFT["ARCHIVE"][0]
    gateway.receivers["ARCHIVE"].has([first, first.replace(b"|P|2.5.1\r", b"|P|2.5\r"), first], gateway.until)
    same("resend of what came once more", (0, "resent 0\n"), gateway.tell("resend", "ARCHIVE"))
    gateway.kill()


def left_again(gateway):
    """A start where something is left for a receiver, and behind it a refused message is due to another once more, all under the one plan of the log."""
    gateway.play(WARDS=Receiver(), ARCHIVE=Receiver())
    lay(gateway, chain([[*begun(gateway), report(1, [1]), report(2, [2]), passed(NOW, 2, 5, refused(1, b"")), again(NOW, 2, 5)]]))
    gateway.start()
    for name in "WARDS", "ARCHIVE":
        gateway.wait(f"receiver {name}: 1 messages wait in folder")
        gateway.receivers[name].has(LEFT[name][:1], gateway.until)
    gateway.kill()


def plan_differs(gateway):
    """Where PLAN isn't the plan in force by the log, a start takes neither in silence: an option says which."""
    gateway.play(WARDS=Receiver(), ARCHIVE=Receiver())
    gateway.start()
    text = (gateway.room / "plan").read_text()
    (gateway.room / "next").write_text(text.replace("build 12 const 2.5.1", "build 12 const 2.5"))
    same("swap", (0, "swapped 1\n"), gateway.tell("swap", "next"))
    gateway.kill()
    # (a start opens the gate of the last batch)
    ran(gateway)
    before = sorted((it.name, it.read_bytes()) for it in gateway.folder.glob("*.segment"))
    status, lines = ran(gateway)
    same("a start without an option", (3, "fault 2"), (status, lines.split("\n")[0]))
    for word in "--take-plan", "--keep-plan":
        if word not in lines:
            raise Differs(f"{lines!r} doesn't say {word}")
    same("a start with both", (2, "error: the argument '--take-plan' cannot be used with '--keep-plan'"), (lambda it: (it[0], it[1].split("\n")[0]))(ran(gateway, "--take-plan", "--keep-plan")))
    same("the log then", before, sorted((it.name, it.read_bytes()) for it in gateway.folder.glob("*.segment")))
    swapped = LEFT["ARCHIVE"][0].replace(b"|P|2.5.1\r", b"|P|2.5\r")
    gateway.start("--keep-plan")
    gateway.ask([REPORT])
    gateway.receivers["ARCHIVE"].has([swapped], gateway.until)
    same("what waits", [0, 0], gateway.once([0, 0], gateway.waiting))
    gateway.stop()
    gateway.start("--take-plan")
    gateway.ask([REPORT])
    gateway.receivers["ARCHIVE"].has([swapped, LEFT["ARCHIVE"][0]], gateway.until)
    same("what waits", [0, 0], gateway.once([0, 0], gateway.waiting))
    gateway.stop()
    gateway.start()
    gateway.kill()


def plan_refused(gateway):
    """A plan that this program refuses, and that what waits is under, stops a start, with its place, before anything is listened to.
    Where nothing waits under it, it stops nothing."""
    gateway.play(WARDS=Receiver(), ARCHIVE=Receiver())
    text = (gateway.room / "plan").read_bytes()
    first, *rest = begun(gateway, b"no plan"), planned(NOW, text)
    lay(gateway, chain([[*first, report(1, [1]), *rest, report(2, [1])]]))
    status, lines = ran(gateway)
    same("status and fault", (3, "fault 2"), (status, lines.split("\n")[0]))
    if not re.search(r"the plan at place 2 of the log", lines) or "listening" in lines:
        raise Differs(f"the lines are {lines!r}")
    lay(gateway, chain([[*first, report(1, [1]), passed(NOW, 1, 4, TAKEN), *rest, report(2, [1])]]))
    gateway.start()
    gateway.receivers["WARDS"].has(LEFT["WARDS"][:1], gateway.until)
    gateway.kill()


def old_folder(gateway):
    """A folder with spools is refused, and nothing is made in it."""
    gateway.play(WARDS=Receiver(), ARCHIVE=Receiver())
    (gateway.folder / "spool").mkdir()
    before = sorted(it.name for it in gateway.folder.iterdir())
    status, lines = ran(gateway)
    same("status and lines", (3, ["fault 2", "folder was made by an earlier hl7gate: let that one deliver what waits, and begin with a new folder", ""]), (status, lines.split("\n")))
    same("what the folder has", before, sorted(it.name for it in gateway.folder.iterdir()))


def moved_on(gateway, each=100):
    """Of three receivers the middle one goes at an install and comes back at the next, while each has some that wait: each receives its own alone, in order."""
    names, events = ["ONE", "TWO", "THREE"], {"ONE": "A01", "TWO": "A02", "THREE": "A03"}
    receivers = {it: Receiver() for it in names}
    gateway.receivers, addresses = receivers, {name: it.address for name, it in receivers.items()}
    for receiver in receivers.values():
        receiver.close()
    (gateway.room / "plan").write_text(routed(addresses, events))
    (gateway.room / "two").write_text(routed({it: addresses[it] for it in ("THREE", "ONE")}, events))
    gateway.start()
    stated, line = {it: [] for it in names}, gateway.client()
    for at in range(each):
        if at % 10 == 5:
            same("install", 0, gateway.tell("install", "two" if at % 20 == 5 else "plan")[0])
        for name in names:
            block = message(b"%s%d" % (name.encode(), at), events[name].encode())
            if codes(line.ask([block])) == [b"AA"]:
                stated[name].append(block)
    same("how many TWO was due", each // 2, len(stated["TWO"]))
    gateway.kill()
    gateway.start()
    for receiver in receivers.values():
        receiver.open(receiver.port)
    for name in names:
        receivers[name].has(stated[name], gateway.until)
    gateway.kill()


def rests(gateway, seconds=6):
    """Waits until the gateway has used hardly any processor time for so long."""
    used = lambda: sum(map(int, open(f"/proc/{gateway.process.pid}/stat").read().rsplit(") ", 1)[1].split()[11:13]))
    before, now = -9, used()
    while now - before > 4 and time.monotonic() < gateway.until:
        time.sleep(seconds)
        before, now = now, used()


# Behind how many bytes the next file of the log is begun, and how many messages of a million bytes it has then at most.
LIMIT, LARGE = 64 << 20, 66


def bulk(size=1_000_000):
    return message(b"BULK", bulk=b"x" * size)[1:-2]


def nearly_long(with_last):
    """A log to whose last file a start's plan may be added, and hardly more. `with_last` makes it with a last message of this size."""
    return with_last(LIMIT - 1_200 - len(list(with_last(0).values())[-1]))


def room_ends(gateway):
    """The disk is full when the next file of the log is to be begun: the reserve's room is taken for that. Where that is gone too nothing is answered AA, and the
    gateway ends. Either way the next start sends all that was answered AA."""
    gateway.until += 120
    one = Receiver()
    gateway.receivers, others = {"ONE": one}, gateway.folder / "others"
    (gateway.room / "plan").write_text(plan_for({"ONE": one.address}))
    records = [named(NOW, 1, b"ONE", one.address.encode()), planned(NOW, (gateway.room / "plan").read_bytes()), margin(NOW, 10_001)]
    for number in range(LARGE):
        records += [accepted(NOW, 1 + number, [1], bulk()), passed(NOW, 1, len(records), TAKEN)]
    files = nearly_long(lambda size: chain([[*records, accepted(NOW, 1 + LARGE, [1], bulk(size))]]))
    begun_files = lambda: len(list(gateway.folder.glob("*.segment")))
    for has_reserve in True, False:
        one.close()
        one.blocks.clear()
        with small_disk(gateway.folder, LIMIT + BESIDE + (RESERVE if has_reserve else 0)):
            lay(gateway, files)
            if not has_reserve:
                # (it has its size, and no room)
                with open(gateway.folder / "reserve", "wb") as reserve:
                    reserve.truncate(RESERVE)
            gateway.start()
            while (gateway.folder / "reserve").stat().st_size < RESERVE and time.monotonic() < gateway.until:
                time.sleep(0.01)
            fill(others)
            line, answered = gateway.client(), []
            for name in (b"LAST%02d" % it for it in range(40)):
                try:
                    code = codes(line.ask([message(name)]))[0]
                except ConnectionError:
                    code = b"none"
                if code != b"AA":
                    break
                answered.append(name)
            if has_reserve:
                same("how many files the log has, and what the reserve has", (2, 0), (begun_files(), (gateway.folder / "reserve").stat().st_size))
                gateway.kill()
            else:
                same("the last code", b"none", code)
                gateway.ends(3, ["fault 3"])
            others.unlink()
            gateway.start()
            one.open(one.port)
            one.gets("ONE", [b"BULK", *answered], gateway.until)
            gateway.kill()


def lies_refused(gateway):
    """A file is taken away when the next is begun, if all its messages were passed. One stays that has what lies refused, until that came again and was taken."""
    gateway.until += 180
    one = Receiver()
    gateway.receivers = {"ONE": one}
    (gateway.room / "plan").write_text(plan_for({"ONE": one.address}))
    text, address = (gateway.room / "plan").read_bytes(), one.address.encode()
    plan = planned(NOW, text)
    first = [named(NOW, 1, b"ONE", address), plan, margin(NOW, 10_001), accepted(NOW, 1, [1], bulk(0)), passed(NOW, 1, 3, TAKEN)]
    second = [plan, accepted(NOW, 2, [1], bulk(0)), passed(NOW, 1, 6, refused(1, b""))]
    checkpoints = {2: state(5, [(1, b"ONE", address, 4)], plan=1, last=1, below=10_001), 3: state(8, [(1, b"ONE", address, 7, 0, 1)], plan=5, last=2, below=10_001)}
    for what, third, stated in (
        ("one lies refused in the second", [plan], [2, 3, 4]),
        ("it came again, and was taken", [plan, again(NOW, 1, 6), passed(NOW, 1, 9, TAKEN)], [3, 4]),
    ):
        one.close()
        one.blocks.clear()
        for at in range(LARGE):
            third = [*third, accepted(NOW, 3 + at, [1], bulk()), passed(NOW, 1, 8 + len(third), TAKEN)]
        last = lambda size: [accepted(NOW, 3 + LARGE, [1], bulk(size)), passed(NOW, 1, 8 + len(third), TAKEN)]
        lay(gateway, nearly_long(lambda size: chain([first, second, [*third, *last(size)]], checkpoints=checkpoints)))
        gateway.start()
        # (so that the files have been looked at)
        rests(gateway)
        sent = [message(b"LAST%02d" % at) for at in range(12)]
        same(f"{what}: answers", [b"AA"] * 12, codes(gateway.ask(sent)))
        files = lambda: sorted(int(it.name.split(".")[0]) for it in gateway.folder.glob("*.segment"))
        same(f"{what}: which files the log has", stated, gateway.once(stated, files))
        one.open(one.port)
        one.has(sent, gateway.until)
        gateway.kill()


def kept_again(gateway):
    """A file that nobody needs any more stays where a message in it was sent again by `resend`, until that was taken."""
    gateway.until += 90
    one = Receiver()
    gateway.receivers = {"ONE": one}
    (gateway.room / "plan").write_text(plan_for({"ONE": one.address}))
    text, address = (gateway.room / "plan").read_bytes(), one.address.encode()
    plan = planned(NOW, text)
    first = [named(NOW, 1, b"ONE", address), plan, margin(NOW, 10_001), accepted(NOW, 1, [1], bulk(0)), passed(NOW, 1, 3, TAKEN)]
    second = [plan, accepted(NOW, 2, [1], bulk(0)), passed(NOW, 1, 6, TAKEN)]
    checkpoints = {2: state(5, [(1, b"ONE", address, 4)], plan=1, last=1, below=10_001), 3: state(8, [(1, b"ONE", address, 7)], plan=5, last=2, below=10_001)}
    third = [plan]
    for at in range(LARGE):
        third = [*third, accepted(NOW, 3 + at, [1], bulk()), passed(NOW, 1, 8 + len(third), TAKEN)]
    last = lambda size: [accepted(NOW, 3 + LARGE, [1], bulk(size)), passed(NOW, 1, 8 + len(third), TAKEN)]
    lay(gateway, nearly_long(lambda size: chain([first, second, [*third, *last(size)]], checkpoints=checkpoints)))
    one.close()
    gateway.start()
    # (so that the files have been looked at)
    rests(gateway)
    same("resend", (0, "resent 1\n"), gateway.tell("resend", "6"))
    rests(gateway)
    sent = [message(b"LAST%02d" % at) for at in range(12)]
    same("answers", [b"AA"] * 12, codes(gateway.ask(sent)))
    files = lambda: sorted(int(it.name.split(".")[0]) for it in gateway.folder.glob("*.segment"))
    same("which files the log has", [2, 3, 4], gateway.once([2, 3, 4], files))
    same("resend of what is gone", (1, "refused: the log keeps places from 5 on\n"), gateway.tell("resend", "3"))
    gateway.stop()
    one.open(one.port)
    gateway.start()
    one.has([b"\x0b" + bulk(0) + b"\x1c\r", *sent], gateway.until)
    gateway.kill()


def by_run(gateway):
    """The day by `run`, and by the gateway: the receivers get the same, byte for byte, and senders the same answers, but for their times."""
    gateway.play(WARDS=Receiver(), ARCHIVE=Receiver())
    (gateway.room / "out").mkdir()
    done = subprocess.run([gateway.program, "run", "plan", "out"], cwd=gateway.room, input=b"".join(MESSAGES * 40), capture_output=True, timeout=60)
    gateway.start()
    answers = gateway.ask(MESSAGES * 40)
    without = lambda it: re.sub(rb"(MSH(?:\|[^|]*){5}\|)\d{14}", rb"\1NOW", it)
    same("answers", without(done.stdout), without(b"".join(it or b"" for it in answers)))
    for name, receiver in gateway.receivers.items():
        stated = (gateway.room / "out" / f"{name}.mllp").read_bytes()
        with receiver.news:
            receiver.news.wait_for(lambda: sum(map(len, receiver.blocks)) >= len(stated), max(0, gateway.until - time.monotonic()))
        same(f"what {name} got", stated, b"".join(receiver.blocks))
    gateway.kill()


# Sets the clock an hour back from when the file of BACK is there.
CLOCK = r"""
extern long syscall(long, ...);
extern char *getenv(const char *);
enum { CLOCK_GETTIME = 228, ACCESS = 21 };
int clock_gettime(int clock, long *time) {
    int result = (int)syscall(CLOCK_GETTIME, clock, time);
    if (!result && !clock && !syscall(ACCESS, getenv("BACK"), 0L)) time[0] -= 3600;
    return result;
}
"""


def clock_back(gateway):
    """The clock is set back by an hour in mid-traffic: messages are answered and sent, their stamps are the clock's, and the next start goes on."""
    gateway.play(WARDS=Receiver(), ARCHIVE=Receiver())
    back = gateway.room / "back"
    gateway.start(env={"LD_PRELOAD": str(library_in(gateway.room, "clock", CLOCK)), "BACK": str(back)})
    answers = gateway.ask(MESSAGES)
    gateway.answered(answers, ANSWERS)
    back.write_text("")
    answers = gateway.ask(MESSAGES)
    same("codes", codes(ANSWERS), codes(answers))
    stamp = time.mktime(time.strptime(answers[0].split(b"|")[6].decode(), "%Y%m%d%H%M%S")) - time.mktime(time.gmtime())
    if not -3700 < stamp < -3500:
        raise Differs(f"an answer's stamp is {stamp} s from now")
    for name, receiver in gateway.receivers.items():
        receiver.has(LEFT[name] * 2, gateway.until)
    same("what waits", [0, 0], gateway.once([0, 0], gateway.waiting))
    gateway.stop()
    gateway.start()
    gateway.ask([REPORT])
    gateway.receivers["ARCHIVE"].has(LEFT["ARCHIVE"] * 2 + LEFT["ARCHIVE"][:1], gateway.until)
    gateway.kill()


def folder_gone(gateway):
    """The folder is removed under the gateway, or moved, or a file of its log is removed: nothing is answered AA any more, and it ends."""
    gateway.play(WARDS=Receiver(), ARCHIVE=Receiver())
    for go in shutil.rmtree, lambda it: os.rename(it, str(it) + "2"), lambda it: os.unlink(it / name(1)):
        gateway.folder.mkdir(exist_ok=True)
        gateway.start()
        line = gateway.client()
        same("a code before", [b"AA"], codes(line.ask([REPORT])))
        go(gateway.folder)
        line.send(REPORT.replace(b"LAB0007", b"LATE"))
        try:
            same("the answer then", None, line.block())
        except ConnectionError:
            pass
        gateway.ends(3, ["fault 3"])


def refusals_turn(gateway):
    """At 64 MB the log of refusals is put aside, in the place of the one before, and goes on in a new file: each line is in the one or the other."""
    gateway.play(WARDS=Receiver(), ARCHIVE=Receiver())
    log, aside = (gateway.folder / it for it in ("refusals.log", "refusals.log.1"))
    aside.write_text("the one before\n")
    with open(log, "wb") as file:
        file.truncate(LIMIT - 1)
    gateway.start()
    refused = refused_that_day()
    without = lambda it: re.sub(r" from (?:PEER|127\.0\.0\.1:\d+)", " from PEER", re.sub(r"^(?:\d{14}|NOW) session (\d) G\d+ ", r"session \1 ", it))
    for session in 1, 2:
        gateway.ask(MESSAGES)
        gateway.wait("folder/refusals.log had 64 MB: it is refusals.log.1 now")
        seen = lambda: [without(it) for it in (aside.read_bytes()[LIMIT - 1 :] + log.read_bytes()).decode().splitlines()]
        stated = [without(f"NOW session {it} {line}") for it in range(1, session + 1) for line in refused]
        same("the lines of both", stated, gateway.once(stated, seen))
    same("how often it was put aside, and the mode of the new one", (1, 0o600), (len(gateway.found(".*it is refusals.log.1 now")), log.stat().st_mode & 0o777))
    gateway.kill()


# Has each read of a file take five milliseconds while the file of SLOW is there.
SLOW = r"""
typedef unsigned long size;
extern long syscall(long, ...);
extern char *getenv(const char *);
enum { PREAD = 17, ACCESS = 21, NANOSLEEP = 35 };
long pread64(int file, void *bytes, size length, long at) {
    long time[2] = { 0, 5000000 };
    if (!syscall(ACCESS, getenv("SLOW"), 0L)) syscall(NANOSLEEP, time, 0L);
    return syscall(PREAD, file, bytes, length, at);
}
long pread(int file, void *bytes, size length, long at) { return pread64(file, bytes, length, at); }
"""


def resend_waits(gateway, count=2_000):
    """While `resend` reads the log other words, senders and receivers are attended to at once."""
    gateway.play(WARDS=Receiver(), ARCHIVE=Receiver())
    slow, told = gateway.room / "slow", []
    records = [*begun(gateway), report(1, [1]), passed(NOW, 1, 4, refused(1, b""))]
    for number in range(2, count):
        records += [report(number, [1]), passed(NOW, 1, len(records), TAKEN)]
    lay(gateway, chain([records]))
    gateway.start(env={"LD_PRELOAD": str(library_in(gateway.room, "slow", SLOW)), "SLOW": str(slow)})
    for receiver in gateway.receivers.values():
        gateway.wait(f"receiver \\w+ at {receiver.address} connected")
    line = gateway.client()
    same("resend", (0, "resent 1\n"), gateway.tell("resend", "WARDS"))
    # (so that both forwarders have read up to the log's end)
    line.ask([REPORT])
    gateway.receivers["WARDS"].has(LEFT["WARDS"][:1] * 2, gateway.until)
    gateway.receivers["ARCHIVE"].has(LEFT["ARCHIVE"][:1], gateway.until)
    slow.write_text("")
    asks = threading.Thread(target=lambda: told.append(gateway.tell("resend", "WARDS")), daemon=True)
    asks.start()
    for at in range(5):
        time.sleep(0.2)
        since = time.monotonic()
        same("status, and an answer", (0, [b"AA"]), (gateway.tell("status")[0], codes(line.ask([REPORT]))))
        gateway.receivers["ARCHIVE"].has(LEFT["ARCHIVE"][:1] * (at + 2), since + 2)
        if time.monotonic() - since > 2:
            raise Differs(f"a word, an answer and a message took {time.monotonic() - since:.1f} s")
    same("what `resend` has said by then", [], told)
    slow.unlink()
    asks.join(20)
    same("what it said in the end", [(0, "resent 0\n")], told)
    gateway.kill()
