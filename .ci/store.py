"""Trials of the words by which a gateway's log is a store: what is found in it, shown, and sent once more. `.ci/gateways` plays them.

The files of logs are made by log_files.py, and not by the program.
"""
import subprocess
import time

from disks import NOW, begun, lay, report
from gateway import REPORT, Receiver
from log_files import SKIPPED, TAKEN, accepted, again, chain, passed, planned, refused, state
from loopback import ANSWERS, LEFT, MESSAGES, SECRETS, same
from pages import got, samples, shown
from past import CLOCK
from preload import library_in

SIZE = len(REPORT) - 3
AT = "2026-11-30T14:05:06.0000%02dZ"
NO_RECEIVER = (1, "refused: no receiver of the plan has this name\n")


def lines(*its):
    return 0, "".join(it + "\n" for it in its)


def segments(block):
    """The segments of a message, a line each, as a listing escapes them."""
    escaped = block[1:-2].replace(b"\\", b"\\\\").replace(b"'", b"\\'").replace(b'"', b'\\"')
    return [it.decode("ascii") for it in escaped.split(b"\r") if it]


def found(gateway):
    """`find` and `show` say where a message was accepted, and how each receiver stands with it. Values are shown only where they are asked for."""
    gateway.play(WARDS=Receiver(), ARCHIVE=Receiver(codes=[b""]))
    passes = [passed(NOW + 10, 1, 4, TAKEN), passed(NOW + 11, 2, 4, refused(1, b"Washington")), passed(NOW + 12, 1, 5, SKIPPED)]
    records = [*begun(gateway), report(1, [1, 2]), report(2, [1], b"LAB0008"), *passes, again(NOW + 13, 2, 4), report(3, [2], b"LAB0009"), report(4, [2], b"LAB0009")]
    lay(gateway, chain([records]))
    gateway.start()
    tell = gateway.tell
    first = [f"4 {AT % 1} accepted 1; {SIZE} bytes", f"6 {AT % 10} WARDS (1) took the message at 4", f"9 {AT % 13} the message at 4 waits for ARCHIVE (2)"]
    second = [f"5 {AT % 2} accepted 2; {SIZE} bytes", f"8 {AT % 12} the message at 5 was skipped for WARDS (1)"]
    twice = [f"{at} {AT % number} {what}" for at, number in ((10, 3), (11, 4)) for what in (f"accepted {number}; {SIZE} bytes", f"the message at {at} waits for ARCHIVE (2)")]
    same("find", lines(*first), tell("find", "LAB0007"))
    same("find of what was skipped", lines(*second), tell("find", "LAB0008"))
    same("find of two", lines(*twice), tell("find", "LAB0009"))
    same("find of none", (1, "refused: no accepted message of the log has this control id\n"), tell("find", "LAB"))
    same("show", lines(*first), tell("show", "4"))
    same("show with values", lines(*first, *segments(REPORT)), tell("show", "4", "--values"))
    same("that no value is shown", [], [it for it in SECRETS if it in tell("show", "4")[1] + tell("find", "LAB0007")[1]])
    for place in "3", "6", "12", "999":
        same("show of no message", (1, f"refused: the log has no accepted message at place {place}\n"), tell("show", place))
    same("show of no place", (1, "refused: a place is a number\n"), tell("show", "ARCHIVE"))
    gateway.kill()


def refused_at(gateway):
    """What a receiver refused is found so, with its code, and once it was sent again and taken, that too."""
    gateway.play(WARDS=Receiver(codes=[b"AE", b"AA"]), ARCHIVE=Receiver())
    lay(gateway, chain([[*begun(gateway), report(1, [1])]]))
    gateway.start()
    gateway.wait("receiver WARDS answered AE: .*")
    same("how it stands", "WARDS (1) refused the message at 4, code 1\n", gateway.tell("find", "LAB0007")[1].splitlines(True)[1].split(" ", 2)[2])
    same("resend", (0, "resent 1\n"), gateway.tell("resend", "4", "WARDS"))
    gateway.receivers["WARDS"].has(LEFT["WARDS"][:1] * 2, gateway.until)
    look = lambda: gateway.tell("show", "4")[1].splitlines(True)[1].split(" ", 2)[2]
    same("how it stands then", "WARDS (1) took the message at 4\n", gateway.once("WARDS (1) took the message at 4\n", look))
    same("what lies refused", (0, "resent 0\n"), gateway.tell("resend", "WARDS"))
    gateway.kill()


def again_at(gateway):
    """`resend PLACE` has one message be due once more, to one receiver or to each of its route."""
    gateway.play(WARDS=Receiver(), ARCHIVE=Receiver())
    lay(gateway, chain([[*begun(gateway), report(1, [1, 2]), passed(NOW, 1, 4, TAKEN), passed(NOW, 2, 4, TAKEN), report(2, [1]), passed(NOW, 1, 7, TAKEN)]]))
    gateway.start()
    wards, archive = LEFT["WARDS"][0], LEFT["ARCHIVE"][0]
    same("resend to all", (0, "resent 2\n"), gateway.tell("resend", "4"))
    gateway.receivers["WARDS"].has([wards], gateway.until)
    gateway.receivers["ARCHIVE"].has([archive], gateway.until)
    same("resend to one", (0, "resent 1\n"), gateway.tell("resend", "4", "ARCHIVE"))
    gateway.receivers["ARCHIVE"].has([archive] * 2, gateway.until)
    same("resend to nobody", NO_RECEIVER, gateway.tell("resend", "4", "NOBODY"))
    same("resend to another", (1, "refused: the message has no such receiver\n"), gateway.tell("resend", "7", "ARCHIVE"))
    same("resend of no message", (1, "refused: the log has no accepted message at place 3\n"), gateway.tell("resend", "3"))
    same("resend of no place", (1, "refused: the log keeps places from 0 on\n"), gateway.tell("resend", "999"))
    same("what WARDS got", 1, len(gateway.receivers["WARDS"].blocks))
    same("what waits", [0, 0], gateway.once([0, 0], gateway.waiting))
    gateway.stop()
    gateway.start()
    same("resend after a restart", (0, "resent 2\n"), gateway.tell("resend", "4"))
    gateway.receivers["WARDS"].has([wards] * 2, gateway.until)
    gateway.receivers["ARCHIVE"].has([archive] * 3, gateway.until)
    gateway.kill()


def replayed(gateway):
    """`replay` has be due once more to a receiver what was accepted for it in a span of time, both seconds included, in order."""
    gateway.play(WARDS=Receiver(), ARCHIVE=Receiver())
    its = [REPORT.replace(b"LAB0007", b"LAB000%d" % it) for it in range(5)]
    arrived = [accepted(NOW + 1_000_000 * at + 999_999 * (at == 3), at + 1, [1, 2] if at != 2 else [1], it[1:-2]) for at, it in enumerate(its)]
    passes = [passed(NOW + 9_000_000, to, 4 + at, TAKEN) for at in range(5) for to in (1, 2) if (at, to) != (2, 2)]
    lay(gateway, chain([[*begun(gateway), *arrived, *passes]]))
    gateway.start()
    came = [LEFT["ARCHIVE"][0].replace(b"LAB0007", b"LAB000%d" % it) for it in (1, 3)]
    same("replay", (0, "replayed 2; the log keeps places from 0 on\n"), gateway.tell("replay", "ARCHIVE", "20261130140507", "20261130140509"))
    gateway.receivers["ARCHIVE"].has(came, gateway.until)
    same("replay of none", (0, "replayed 0; the log keeps places from 0 on\n"), gateway.tell("replay", "ARCHIVE", "20261130140600", "20261130150000"))
    same("replay by no time", (1, "refused: a time is YYYYMMDDHHMMSS, in UTC\n"), gateway.tell("replay", "ARCHIVE", "2026", "20261130150000"))
    same("replay by one time", (1, "refused: a time is YYYYMMDDHHMMSS, in UTC\n"), gateway.tell("replay", "ARCHIVE", "20261130140600"))
    same("replay to nobody", NO_RECEIVER, gateway.tell("replay", "NOBODY", "20261130140507", "20261130140508"))
    same("what waits", [0, 0], gateway.once([0, 0], gateway.waiting))
    same("what they got", [0, 2], [len(gateway.receivers[it].blocks) for it in ("WARDS", "ARCHIVE")])
    gateway.kill()


def given_up(gateway):
    """A message in a file that may be removed any time isn't sent once more, but it is shown; one of a later file is."""
    gateway.play(WARDS=Receiver(), ARCHIVE=Receiver())
    text = (gateway.room / "plan").read_bytes()
    older = [*begun(gateway), report(1, [1]), passed(NOW, 1, 4, TAKEN)]
    later = [planned(NOW, text), report(2, [1]), passed(NOW, 1, 7, TAKEN)]
    address = lambda it: gateway.receivers[it].address.encode()
    checkpoint = state(6, [(1, b"WARDS", address("WARDS"), 6), (2, b"ARCHIVE", address("ARCHIVE"), 6)], plan=2, last=1, below=10_001)
    lay(gateway, chain([older, later], keep=6, checkpoints={2: checkpoint}))
    gateway.start()
    same("resend of what may go", (1, "refused: the log keeps places from 6 on\n"), gateway.tell("resend", "4"))
    same("show of it", 0, gateway.tell("show", "4")[0])
    same("replay", (0, "replayed 1; the log keeps places from 6 on\n"), gateway.tell("replay", "WARDS", "20261130000000", "20261130235959"))
    gateway.receivers["WARDS"].has(LEFT["WARDS"][:1], gateway.until)
    gateway.kill()


def passed_over(gateway):
    """`skip` passes over what is first for a receiver that says nothing to it, and `park` has it lie with what was refused, from where `resend` sends it again."""
    gateway.play(WARDS=Receiver(codes=[b"", b"", b"AA"]), ARCHIVE=Receiver())
    lay(gateway, chain([[*begun(gateway), *(report(it, [1], b"LAB000%d" % it) for it in (1, 2, 3))]]))
    gateway.start()
    wards = gateway.receivers["WARDS"]
    its = [LEFT["WARDS"][0].replace(b"LAB0007", b"LAB000%d" % it) for it in (1, 2, 3)]
    wards.has(its[:1], gateway.until)
    same("skip", (0, "skipped 4\n"), gateway.tell("skip", "WARDS"))
    wards.has(its[:2], gateway.until)
    same("park", (0, "parked 5\n"), gateway.tell("park", "WARDS"))
    wards.has(its, gateway.until)
    how = lambda control: gateway.tell("find", control)[1].splitlines()[1].split(" ", 2)[2]
    same("the first", "the message at 4 was skipped for WARDS (1)", how("LAB0001"))
    same("the second", "WARDS (1) refused the message at 5, code 3", how("LAB0002"))
    same("the third", "WARDS (1) took the message at 6", gateway.once("WARDS (1) took the message at 6", lambda: how("LAB0003")))
    same("skip of nothing", (1, "refused: nothing waits for this receiver\n"), gateway.tell("skip", "WARDS"))
    same("skip for nobody", NO_RECEIVER, gateway.tell("skip", "NOBODY"))
    same("resend", (0, "resent 1\n"), gateway.tell("resend", "WARDS"))
    wards.has([*its, its[1]], gateway.until)
    gateway.kill()


def passed_away(gateway):
    """What is first is passed over too where its receiver is held, or isn't there."""
    gateway.play(WARDS=Receiver(), ARCHIVE=Receiver())
    wards = gateway.receivers["WARDS"]
    lay(gateway, chain([[*begun(gateway), *(report(it, [1], b"LAB000%d" % it) for it in (1, 2, 3))]]))
    wards.close()
    gateway.start()
    gateway.wait("receiver WARDS can't be connected; it is tried until it is")
    same("skip while it is gone", (0, "skipped 4\n"), gateway.tell("skip", "WARDS"))
    gateway.tell("hold", "WARDS")
    same("skip while it is held", (0, "skipped 5\n"), gateway.tell("skip", "WARDS"))
    wards.open(wards.port)
    gateway.tell("go", "WARDS")
    wards.has([LEFT["WARDS"][0].replace(b"LAB0007", b"LAB0003")], gateway.until)
    gateway.kill()


def files(gateway):
    return sorted(int(it.name.split(".")[0]) for it in gateway.folder.glob("*.segment"))


def held(gateway):
    """The words of patients in the files of the folder."""
    texts = [it.read_bytes() for it in gateway.folder.iterdir() if it.is_file() and it.name != "reserve"]
    return sorted(word for word in SECRETS if any(word.encode() in it for it in texts))


def sealed(gateway):
    """`seal` ends the last file: what was delivered leaves the disk, and what waits stays. The next start goes on, and words read the log from its first file on."""
    wards, archive, tell = Receiver(), Receiver(), gateway.tell
    gateway.play(WARDS=wards, ARCHIVE=archive)
    gateway.start()
    same("hold", 0, tell("hold", "ARCHIVE")[0])
    gateway.answered(gateway.ask(MESSAGES), ANSWERS)
    wards.has(LEFT["WARDS"], gateway.until)
    same("what waits", [2, 0], gateway.once([2, 0], gateway.waiting))
    same("seal where something waits", (0, "sealed 1\n"), tell("seal"))
    same("the files, and whether patients' words are in them", ([1, 2], True), (files(gateway), bool(held(gateway))))
    same("go", 0, tell("go", "ARCHIVE")[0])
    archive.has(LEFT["ARCHIVE"], gateway.until)
    same("what waits", [0, 0], gateway.once([0, 0], gateway.waiting))
    same("seal where nothing waits", (0, "sealed 2\n"), tell("seal"))
    same("the files, and patients' words in them", ([3, 4], []), (files(gateway), held(gateway)))
    same("show of what is gone", (1, "refused: the log has no accepted message at place 4\n"), tell("show", "4"))
    gateway.kill()
    gateway.start()
    gateway.ask([REPORT])
    wards.has(LEFT["WARDS"] + LEFT["WARDS"][:1], gateway.until)
    archive.has(LEFT["ARCHIVE"] + LEFT["ARCHIVE"][:1], gateway.until)
    same("what waits", [0, 0], gateway.once([0, 0], gateway.waiting))
    same("find in later files", 0, tell("find", "LAB0007")[0])
    same("seal after a restart", (0, "sealed 4\n"), tell("seal"))
    same("the files, and patients' words in them", ([5, 6], []), (files(gateway), held(gateway)))
    # (each forwarder rests in a file that is gone)
    gateway.ask([REPORT])
    wards.has(LEFT["WARDS"] + LEFT["WARDS"][:1] * 2, gateway.until)
    same("a word that isn't there", 1, tell("seal", "6")[0])
    gateway.kill()


def leaves(gateway):
    """What was delivered leaves the disk by itself within two minutes. Then no file is begun any more. The metrics say how many bytes the files have."""
    gateway.until += 100
    gateway.play(WARDS=Receiver(), ARCHIVE=Receiver())
    shown(gateway)
    gateway.answered(gateway.ask(MESSAGES), ANSWERS)
    for name, receiver in gateway.receivers.items():
        receiver.has(LEFT[name], gateway.until)
    same("whether patients' words are in the files", True, bool(held(gateway)))
    same("patients' words in the files", [], gateway.once([], lambda: held(gateway)))
    left = gateway.once([2, 3], lambda: files(gateway))
    same("the files", [2, 3], left)
    time.sleep(65)
    same("the files a minute later", left, files(gateway))
    size = sum(it.stat().st_size for it in gateway.folder.glob("*.segment"))
    same("the bytes of the files", size, samples(got(gateway, "/metrics")[2])["hl7gate_log_bytes", ()])
    gateway.ask([REPORT])
    gateway.receivers["WARDS"].has(LEFT["WARDS"] + LEFT["WARDS"][:1], gateway.until)
    gateway.kill()


# Has a sleep of 50 milliseconds take 50 microseconds: so what is done by the minute or the hour comes a thousand times as soon.
SOONER = r"""
extern long syscall(long, ...);
enum { NANOSLEEP = 35 };
int nanosleep(const long *time, long *rest) {
    const long sooner[2] = { 0, 50000 };
    return (int)syscall(NANOSLEEP, time[0] || time[1] != 50000000 ? time : sooner, rest);
}
"""


def ends_by_hours(gateway):
    """A file that has messages ends after an hour, though some wait: so these don't keep later ones with them."""
    wards, archive = Receiver(), Receiver()
    gateway.play(WARDS=wards, ARCHIVE=archive)
    gateway.start(env={"LD_PRELOAD": str(library_in(gateway.room, "sooner", SOONER))})
    same("hold", 0, gateway.tell("hold", "ARCHIVE")[0])
    since = time.monotonic()
    gateway.answered(gateway.ask(MESSAGES), ANSWERS)
    wards.has(LEFT["WARDS"], gateway.until)
    same("the files after an hour", [1, 2], gateway.once([1, 2], lambda: files(gateway)))
    same("whether it was sooner", False, time.monotonic() - since < 3.6)
    same("go", 0, gateway.tell("go", "ARCHIVE")[0])
    archive.has(LEFT["ARCHIVE"], gateway.until)
    same("the files, and patients' words in them", ([3, 4], []), gateway.once(([3, 4], []), lambda: (files(gateway), held(gateway))))
    gateway.kill()


def kept_days(gateway):
    """`--keep 1` keeps what was delivered for a day since it was accepted, by the times in the log: it is shown, and sent once more.
    Where the clock is set back nothing goes earlier."""
    gateway.play(WARDS=Receiver(), ARCHIVE=Receiver())
    for word in "3651", "+3", "x":
        done = subprocess.run([gateway.program, "gateway", "plan", "127.0.0.1:0", "folder", "--keep", word], cwd=gateway.room, capture_output=True, text=True, timeout=20)
        same(f"--keep {word}", (2, "error: keep is a number from 0 to 3650\n"), (done.returncode, done.stderr))
    later, tell = gateway.room / "later", gateway.tell
    # (a day and an hour later, once its file is there)
    clock = CLOCK.replace("time[0] -= 3600", "time[0] += 90000")
    gateway.start("--keep", "1", env={"LD_PRELOAD": str(library_in(gateway.room, "clock", clock)), "BACK": str(later)})
    count = 0

    def deliver(name):
        nonlocal count
        count += 1
        gateway.ask([REPORT.replace(b"LAB0007", name)])
        for receiver in gateway.receivers.values():
            with receiver.news:
                receiver.news.wait_for(lambda: len(receiver.blocks) >= count, 10)
        same("what waits", [0, 0], gateway.once([0, 0], gateway.waiting))
        same("seal", (0, "sealed"), (lambda it: (it[0], it[1].split()[0]))(tell("seal")))

    is_found = lambda *names: [tell("find", it)[0] == 0 for it in names]
    deliver(b"LAB0001")
    same("seal once more", 0, tell("seal")[0])
    same("what is found, and shown", ([True], True), (is_found("LAB0001"), bool(held(gateway)) and any(it in tell("show", "4", "--values")[1] for it in SECRETS)))
    same("resend", (0, "resent 2\n"), tell("resend", "4"))
    count += 1
    gateway.receivers["ARCHIVE"].has([LEFT["ARCHIVE"][0].replace(b"LAB0007", b"LAB0001")] * 2, gateway.until)
    later.write_text("")
    deliver(b"LAB0002")
    same("what is found a day later", [False, True], is_found("LAB0001", "LAB0002"))
    later.unlink()
    deliver(b"LAB0003")
    later.write_text("")
    same("seal when the clock is back", 0, tell("seal")[0])
    same("what is found then", [True, True], is_found("LAB0002", "LAB0003"))
    gateway.kill()
