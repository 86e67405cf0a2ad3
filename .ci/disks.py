"""Trials of a gateway's disk: a log that is torn, cut, damaged or lacks a file, a disk that is full, and one whose syncs fail. `.ci/gateways` plays them.

The files are made by log_files.py, and not by the program.
"""
import contextlib
import itertools
import json
import re
import subprocess
import time
from concurrent.futures import ThreadPoolExecutor
from pathlib import Path

from gateway import LISTENS, REPORT, RESERVE, Receiver, control
from log_files import TAKEN, accepted, batch, chain, margin, name, named, passed, planned, state
from loopback import LEFT, Differs, same
from preload import library_in

# How many bytes a small disk has beside the reserve.
BESIDE = 6 << 20
SHORT = "the disk is short of room: messages are answered AR until 64 MB are free"
# A time, in microseconds since 1970.
NOW = 1_796_047_506_000_000


class Skipped(Exception):
    """A trial that this machine doesn't allow."""


def begun(gateway, text=None):
    """The first records of a gateway's log by the plan of its folder: its receivers, WARDS and ARCHIVE, its plan, and the margin of numbers."""
    text = (gateway.room / "plan").read_bytes() if text is None else text
    address = lambda it: gateway.receivers[it].address.encode()
    return [named(NOW, 1, b"WARDS", address("WARDS")), named(NOW, 2, b"ARCHIVE", address("ARCHIVE")), planned(NOW, text), margin(NOW, 10_001)]


def report(number, to, its=b"LAB0007"):
    """The record of the report, accepted under this number for these receivers."""
    return accepted(NOW + number, number, to, REPORT[1:-2].replace(b"LAB0007", its))


def lay(gateway, files):
    """Files of a log in the gateway's folder, and no others."""
    for file in gateway.folder.glob("*.segment"):
        file.unlink()
    for its, content in files.items():
        (gateway.folder / its).write_bytes(content)


def is_refused(gateway, what, files, line):
    """A log that can't be gone on with: the gateway says so in a line, doesn't listen, and no file of the log changes."""
    lay(gateway, files)
    ran = subprocess.run([gateway.program, "gateway", "plan", "127.0.0.1:0", "folder"], cwd=gateway.room, capture_output=True, text=True, timeout=20)
    same(f"{what}: status and first line", (3, "fault 2"), (ran.returncode, ran.stderr.split("\n")[0]))
    if not re.match(line, ran.stderr.split("\n")[1]):
        raise Differs(f"{what}: {ran.stderr!r} has no line {line!r}")
    left = {it.name: it.read_bytes() for it in gateway.folder.glob("*.segment")}
    same(f"{what}: the files", files, left)


def goes_on(gateway, what, files, wards, archive):
    """A log that is gone on with: as many messages wait for each receiver, and a new one is taken and comes behind them."""
    lay(gateway, files)
    for receiver in gateway.receivers.values():
        receiver.blocks.clear()
    gateway.start()
    waits = [f"receiver {it}: {count} messages wait in folder" for it, count in (("WARDS", wards), ("ARCHIVE", archive)) if count]
    same(f"{what}: what waits", waits, [it for it in gateway.lines if "messages wait" in it])
    same(f"{what}: the code of a new message's answer", [(b"AA", None)], list(send(gateway, iter([b"LAB0099"]), 1)))
    for its, count in ("WARDS", wards), ("ARCHIVE", archive):
        blocks = [LEFT[its][0]] * count + [LEFT[its][0].replace(b"LAB0007", b"LAB0099")]
        gateway.receivers[its].has(blocks, gateway.until)
    gateway.kill()


def torn(gateway):
    """A crash in the midst of a write that wasn't synced leaves part of a batch behind a closed gate: up to any byte, or with zeros before or behind one.
    A whole one counts. Else the log goes on with what was synced. It takes new messages."""
    gateway.play(WARDS=Receiver(), ARCHIVE=Receiver())
    kept = [*begun(gateway), report(1, [1, 2]), passed(NOW, 2, 4, TAKEN), report(2, [1])]
    (its, synced), = chain([kept]).items()
    put = batch([report(3, [1, 2]), report(4, [1])])
    ends = [0, 1, 2, 5, 36, 37, 38, 200, len(put) // 2, len(put) // 2 + 40, len(put) - 2, len(put) - 1, len(put)]
    for end in ends:
        for part in put[:end], put[:end] + bytes(len(put) - end), bytes(end) + put[end:]:
            wards, archive = (4, 1) if part[1:] == put[1:] else (2, 0)
            goes_on(gateway, f"torn at {end}", {its: synced[:-1] + part}, wards, archive)


def damaged(gateway):
    """What lacks bytes that were synced, has others, or lacks a file, is no log: the gateway says where, and doesn't start. A gate of the last file is no such byte."""
    gateway.play(WARDS=Receiver(), ARCHIVE=Receiver())
    files = three_files(gateway)
    one, two, three = sorted(files)
    is_one, at = lambda it: f"folder: segment {it} is damaged at byte ", lambda it, byte: f"folder: segment {it} is damaged at byte {byte}$"
    goes_on(gateway, "three files", files, 3, 1)
    for what, changed, line in (
        ("no first file", {it: files[it] for it in (two, three)}, r"folder: "),
        ("no second file", {it: files[it] for it in (one, three)}, is_one(2)),
        ("no third file", {it: files[it] for it in (one, two)}, is_one(3)),
        ("an empty second file", {**files, two: b""}, is_one(2)),
        ("an empty third file", {**files, three: b""}, is_one(3)),
        ("two files exchanged", {one: files[two], two: files[one], three: files[three]}, r"folder: "),
        ("a file twice", {**files, name(4): files[two]}, is_one("[45]")),
        ("the first file cut", {**files, one: files[one][:-40]}, is_one(1)),
        ("the second file cut", {**files, two: files[two][:-1]}, is_one(2)),
        ("the last file cut", {**files, three: files[three][:-10]}, is_one(3)),
        ("a byte of the last file", {**files, three: changed_at(files[three], -40)}, is_one(3)),
        ("a byte of the first file's head", {**files, one: changed_at(files[one], 50)}, at(1, 0)),
        ("a byte of the second file, which waits", {**files, two: changed_at(files[two], -100)}, r"folder: the log can't be read on in file 2, at byte \d+$|folder: segment 2"),
    ):
        is_refused(gateway, what, changed, line)


def changed_at(content, at):
    at %= len(content)
    return content[:at] + bytes([content[at] ^ 0xFF]) + content[at + 1 :]


def three_files(gateway):
    """A log of three files, each of which has some that waits: for WARDS three in all, for ARCHIVE one."""
    plan = begun(gateway)
    parts = [[*plan, report(1, [1, 2])], [plan[2], passed(NOW, 2, 4, TAKEN), report(2, [1])], [plan[2], report(3, [1, 2])]]
    wards, archive = (gateway.receivers[it].address.encode() for it in ("WARDS", "ARCHIVE"))
    second = state(5, [(1, b"WARDS", wards, 4, 1), (2, b"ARCHIVE", archive, 4, 1)], plan=2, last=1, below=10_001)
    third = state(8, [(1, b"WARDS", wards, 4, 2), (2, b"ARCHIVE", archive, 5, 0)], plan=5, last=2, below=10_001)
    return chain(parts, checkpoints={2: second, 3: third})


# Has the sync of a log's file fail, from one of a number on. What was done to that file since its last sync is undone then, as a kernel may drop what it
# couldn't write. FAILED is a file that is made at that moment.
FAILING = r"""
typedef unsigned long size;
extern long syscall(long, ...);
extern char *getenv(const char *);
extern void *malloc(size);
extern int *__errno_location(void);
enum { PREAD = 17, PWRITE = 18, FSYNC = 74, FDATASYNC = 75, FTRUNCATE = 77, SEEK = 8, READLINK = 89, CREAT = 85, CHANGES = 65536 };
struct change { int file; long at, length, end; char *old; };
static struct change changes[CHANGES];
static long count, syncs, from;
static char held;
static void take(void) { while (__atomic_test_and_set(&held, __ATOMIC_ACQUIRE)); }
static void leave(void) { __atomic_clear(&held, __ATOMIC_RELEASE); }
static int is_log(int file) {
    char link[40] = "/proc/self/fd/", digits[12], path[4096];
    int at = 14, k = 0;
    do digits[k++] = (char)('0' + file % 10); while (file /= 10);
    while (k) link[at++] = digits[--k];
    link[at] = 0;
    long length = syscall(READLINK, link, path, sizeof path);
    const char *word = ".segment";
    for (int same = 0; same < 8; same++)
        if (length < 8 || path[length - 8 + same] != word[same]) return 0;
    return 1;
}
static long end_of(int file) {
    long here = syscall(SEEK, file, 0L, 1), end = syscall(SEEK, file, 0L, 2);
    syscall(SEEK, file, here, 0);
    return end;
}
static void note(int file, long at, long length) {
    if (count == CHANGES) __builtin_trap();
    struct change it = { file, at, 0, end_of(file), malloc((size)length + 1) };
    if (length) it.length = syscall(PREAD, file, it.old, length, at);
    changes[count++] = it;
}
static void forget(int file, int is_undone) {
    long kept = 0;
    for (long it = count; it-- > 0 && is_undone;)
        if (changes[it].file == file) {
            syscall(FTRUNCATE, file, changes[it].end);
            if (changes[it].length > 0) syscall(PWRITE, file, changes[it].old, changes[it].length, changes[it].at);
        }
    for (long it = 0; it < count; it++)
        if (changes[it].file != file) changes[kept++] = changes[it];
    count = kept;
}
static int sync_by(long call, int file) {
    if (!is_log(file)) return (int)syscall(call, file);
    take();
    int fails = ++syncs >= from, result = -1;
    forget(file, fails);
    if (fails) syscall(CREAT, getenv("FAILED"), 0600L), *__errno_location() = 5;
    else result = (int)syscall(call, file);
    leave();
    return result;
}
int fsync(int file) { return sync_by(FSYNC, file); }
int fdatasync(int file) { return sync_by(FDATASYNC, file); }
long pwrite64(int file, const void *bytes, size length, long at) {
    int noted = is_log(file);
    if (noted) take(), note(file, at, (long)length);
    long result = syscall(PWRITE, file, bytes, length, at);
    if (noted) leave();
    return result;
}
long pwrite(int file, const void *bytes, size length, long at) { return pwrite64(file, bytes, length, at); }
int ftruncate64(int file, long length) {
    int noted = is_log(file);
    if (noted) take(), note(file, length, end_of(file) > length ? end_of(file) - length : 0);
    int result = (int)syscall(FTRUNCATE, file, length);
    if (noted) leave();
    return result;
}
int ftruncate(int file, long length) { return ftruncate64(file, length); }
__attribute__((constructor)) static void begin(void) {
    const char *digits = getenv("FAIL");
    for (; digits && *digits >= '0' && *digits <= '9'; digits++) from = from * 10 + (*digits - '0');
}
"""


# Notes in the file of NOTED, at each sync of a folder, its path and what it has then: a line for each, and an empty one behind them.
NOTING = r"""
typedef unsigned long size;
extern long syscall(long, ...);
extern char *getenv(const char *);
enum { WRITE = 1, OPEN = 2, CLOSE = 3, FSYNC = 74, READLINK = 89, GETDENTS = 217, FOLDER = 0200000, APPEND = 02102 };
static char held;
static void put(int to, const char *text, long length) { syscall(WRITE, to, text, length), syscall(WRITE, to, "\n", 1L); }
static long length_of(const char *text) { long length = 0; while (text[length]) length++; return length; }
static void note(int file) {
    static char entries[65536], path[4096];
    char link[40] = "/proc/self/fd/", digits[12];
    int at = 14, k = 0;
    do digits[k++] = (char)('0' + file % 10); while (file /= 10);
    while (k) link[at++] = digits[--k];
    link[at] = 0;
    int folder = (int)syscall(OPEN, link, (long)FOLDER);
    if (folder < 0) return;
    int to = (int)syscall(OPEN, getenv("NOTED"), (long)APPEND, 0600L);
    put(to, path, syscall(READLINK, link, path, sizeof path));
    for (long count; (count = syscall(GETDENTS, folder, entries, sizeof entries)) > 0;)
        for (long it = 0; it < count; it += *(unsigned short *)(entries + it + 16))
            put(to, entries + it + 19, length_of(entries + it + 19));
    put(to, "", 0), syscall(CLOSE, to), syscall(CLOSE, folder);
}
int fsync(int file) {
    int result = (int)syscall(FSYNC, file);
    while (__atomic_test_and_set(&held, __ATOMIC_ACQUIRE));
    note(file);
    __atomic_clear(&held, __ATOMIC_RELEASE);
    return result;
}
"""


def entries_synced(gateway):
    """Each file of the log was in its folder at a sync of that folder: else a power cut may take it away, with all that it has."""
    noted = gateway.room / "noted"
    gateway.play(WARDS=Receiver(), ARCHIVE=Receiver())
    gateway.start(env={"LD_PRELOAD": str(library_in(gateway.room, "noting", NOTING)), "NOTED": str(noted)})
    gateway.ask([REPORT])
    had = {Path(it[0]).name: set(it[1:]) for it in (block.split("\n") for block in noted.read_text().strip().split("\n\n"))}
    made = {it.name for it in gateway.folder.glob("*.segment")}
    same("how many files the log has", 1, len(made))
    same("what the folder has of the log, and had not when it was synced last", set(), made - had.get("folder", set()))
    gateway.kill()


def send_until_it_ends(gateway, failed, most):
    """Sends reports until the connection ends: the control ids of those that were answered AA. None is that was sent after the failure."""
    accepted = []
    with contextlib.suppress(OSError):
        line = gateway.client()
        for at in range(most):
            name, is_late = b"M%07d" % at, failed.exists()
            answer = line.ask([REPORT.replace(b"LAB0007", name)])[0]
            if answer is None:
                break
            if b"MSA|AA|%s\r" % name in answer:
                same("an AA for what was sent after a sync had failed", False, is_late)
                accepted.append(name)
    return accepted


def all_arrived(gateway, accepted, repeats):
    """Each receiver gets these messages, in order, as many of them twice at most, and what is sent now behind them all."""
    gateway.ask([REPORT.replace(b"LAB0007", b"Z")])
    for name, receiver in gateway.receivers.items():
        with receiver.news:
            receiver.news.wait_for(lambda: receiver.blocks and control(receiver.blocks[-1]) == b"Z", max(0, gateway.until - time.monotonic()))
        came = [control(it) for it in receiver.blocks]
        once = list(dict.fromkeys(came))
        same(f"messages of {name} out of order, with the last", [*sorted(once[:-1]), b"Z"], once)
        same(f"accepted messages that {name} lacks", [], sorted(set(accepted) - set(came)))
        if len(came) - len(once) > repeats:
            raise Differs(f"{name} got messages twice: {came}")


def fails_at(gateway, library, number, most=12):
    """The sync of this number fails, and all behind it."""
    failed = gateway.room / "failed"
    gateway.play(WARDS=Receiver(), ARCHIVE=Receiver())
    gateway.start(waits=False, env={"LD_PRELOAD": str(library), "FAIL": str(number), "FAILED": str(failed)})
    accepted = []
    if gateway.is_up():
        accepted = send_until_it_ends(gateway, failed, most)
    gateway.process.wait(max(0.01, gateway.until - time.monotonic()))
    gateway.reader.join(1)
    same(f"sync {number} of the log fails: its status, and whether it failed", (3, True), (gateway.process.returncode, failed.exists()))
    if gateway.found(LISTENS):
        same(f"sync {number} failed: its last line", ["fault 3"], gateway.lines[-1:])
        gateway.wait("folder: the log can't be written any more: .*")
    elif not gateway.found("fault [23]"):
        raise Differs(f"sync {number} failed, and that isn't what the lines say: {gateway.lines}")
    gateway.start()
    all_arrived(gateway, accepted, 1)
    gateway.kill()
    return len(accepted)


def sync_fails(gateway, most=20):
    """The N-th sync of the log fails, for each N, and what it should have brought to the disk is gone: no AA goes out for it, the gateway ends with status 3,
    and the next one sends all that was answered AA."""
    library = library_in(gateway.room, "failing", FAILING)

    def one(number):
        room = gateway.room / f"sync{number}"
        room.mkdir()
        with contextlib.closing(type(gateway)(gateway.program, room)) as its:
            return fails_at(its, library, number)

    with ThreadPoolExecutor(4) as pool:
        accepted = list(pool.map(one, range(1, most + 1)))
    if not 0 < max(accepted):
        raise Differs("no message was accepted before a sync failed")


def fill(path):
    """Takes all the room that the disk has left."""
    with contextlib.suppress(OSError), open(path, "ab", buffering=0) as file:
        for size in (1 << 20, 4096, 1):
            with contextlib.suppress(OSError):
                while file.write(bytes(size)):
                    pass


@contextlib.contextmanager
def small_disk(folder, size=RESERVE + BESIDE):
    """A disk of its own under this folder, while it is used."""
    made = subprocess.run(["mount", "-t", "tmpfs", "-o", f"size={size}", "none", folder], capture_output=True, text=True)
    if made.returncode:
        raise Skipped(f"a disk of its own can't be mounted here: {made.stderr.splitlines()[0]}")
    try:
        yield
    finally:
        subprocess.run(["umount", "-l", folder], check=True)


def send(gateway, names, most, until=lambda: False):
    """Sends reports one after the other, by the next names, until something holds or the connection ends: the control ids by the codes of their answers."""
    answered = {}
    with contextlib.suppress(OSError):
        line = gateway.client()
        for _ in range(most):
            if until():
                break
            name = next(names)
            answer = line.ask([REPORT.replace(b"LAB0007", name)])[0]
            code = re.search(rb"MSA\|(AA|AR)\|%s\r(?:ERR\|\|\|(\d+))?" % name, answer or b"")
            answered.setdefault(code and code.groups(), []).append(name)
            if not answer:
                break
    return answered


def use_reserve(gateway, names):
    """Fills the disk, and sends until what is accepted has taken the reserve: all that was accepted."""
    reserve = gateway.folder / "reserve"
    has = lambda size: reserve.exists() and reserve.stat().st_size == size
    while not has(RESERVE) and time.monotonic() < gateway.until:
        time.sleep(0.01)
    fill(gateway.folder / "others")
    answered = send(gateway, names, 200, lambda: has(0))
    same("the codes on a full disk, and whether the reserve was taken", ([(b"AA", None)], True), (list(answered), has(0)))
    return answered[b"AA", None]


def is_short(gateway, stated):
    """Waits until the gateway says that its disk is short of room, or that it isn't any more, and goes by it."""
    gateway.wait(SHORT if stated else "the disk has room again: messages are taken")
    status = [gateway.program, "tell", "folder", "status", "--json"]
    # (its line comes before it goes by it)
    while json.loads(subprocess.run(status, cwd=gateway.room, capture_output=True, timeout=20).stdout)["short_of_room"] != stated:
        time.sleep(0.01)


def full_disk(gateway):
    """Another's file fills the disk. What is accepted then takes the reserve's room, and messages are answered AR with 207 from then on.
    Where that room is gone too, nothing is answered AA, and the gateway ends.
    Once there is room again, all that was answered AA arrives, and nothing that was answered AR."""
    names, wards, others = (b"M%07d" % it for it in itertools.count()), Receiver(), gateway.folder / "others"
    wards.close()
    with small_disk(gateway.folder):
        gateway.play(WARDS=wards, ARCHIVE=Receiver())
        gateway.start()
        accepted = use_reserve(gateway, names)
        fill(others)
        answered = send(gateway, names, 200)
        accepted += answered.pop((b"AA", None), [])
        same("codes where no room is left", [None], list(answered))
        gateway.ends(3, ["fault 3"])
        others.unlink()
        gateway.start()
        accepted += use_reserve(gateway, names)
        wards.open(wards.port)
        is_short(gateway, True)
        turned_away = send(gateway, names, 3)
        same("codes while the disk is short of room", [(b"AR", b"207")], list(turned_away))
        others.unlink()
        is_short(gateway, False)
        accepted += send(gateway, names, 3)[b"AA", None]
        all_arrived(gateway, accepted, 1)
        for name, receiver in gateway.receivers.items():
            came = {control(it) for it in receiver.blocks}
            same(f"what {name} got of what was answered AR", set(), came & set(turned_away[b"AR", b"207"]))
        gateway.kill()


def no_room(gateway):
    """Others take the disk's last byte while a thousand messages wait. A receiver that comes then is sent nothing, since no acknowledgment could be kept:
    else the gateway would end at one, and send that message anew. It can't be started then. Once there is room the receiver gets all, none twice."""
    names, wards, others = [b"M%07d" % it for it in range(1000)], Receiver(), gateway.folder / "others"
    wards.close()
    with small_disk(gateway.folder):
        gateway.play(WARDS=wards, ARCHIVE=Receiver())
        gateway.start()
        same("the codes of answers", [(b"AA", None)], list(send(gateway, iter(names), len(names))))
        gateway.receivers["ARCHIVE"].gets("ARCHIVE", names, gateway.until)
        # (so that its last acknowledgment is on the disk)
        time.sleep(0.5)
        (gateway.folder / "reserve").write_bytes(b"")
        fill(others)
        gateway.wait("the disk is full: nothing is sent until there is some room")
        wards.open(wards.port)
        gateway.wait(f"receiver WARDS at {wards.address} connected")
        time.sleep(0.5)
        same("what WARDS got", [], wards.blocks)
        same("what the gateway's end was", None, gateway.process.poll())
        gateway.kill()
        gateway.start(waits=False)
        gateway.ends(3, ["fault 3", "folder: the file can't be made or written"])
        same("what WARDS got", [], wards.blocks)
        others.unlink()
        gateway.start()
        wards.gets("WARDS", names, gateway.until)
        gateway.kill()
