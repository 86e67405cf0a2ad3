"""The files of a gateway's log, made as crates/gw_log/README.md and crates/gw_due/README.md say, and not by the program."""
import hashlib


def number(value, size=8):
    return value.to_bytes(size, "big")


def text(value):
    return number(len(value), 4) + value


# Records, in files


OPEN, SHUT, END = b"\x01", b"\x02", b"\x00"


def block(record, gate=OPEN):
    """A record behind its gate, its count, its length and its digest. The count is 2^64 - 1, less how many bytes behind it are not 0."""
    item = hashlib.sha256(record).digest() + record
    sized = number(len(item), 4) + item
    return gate + number(2**64 - 1 - sum(byte != 0 for byte in sized)) + sized


def head(file, first, before, keep=0, log=7, checkpoint=b""):
    return b"".join(map(number, (file, first, before, keep, log))) + checkpoint


def open_file(head, records):
    """The last file: it isn't ended."""
    return b"".join(map(block, [head, *records])) + SHUT


def ended_file(head, records):
    return b"".join(map(block, [head, *records, b""])) + END


def batch(records, gate=SHUT, close=SHUT):
    """What stands behind the records of a file where a batch was put behind them, whose gate isn't open yet."""
    first, *others = records
    return block(first, gate) + b"".join(map(block, others)) + close


def name(file):
    return f"{file:020}.segment"


def chain(parts, first=1, start=0, before=0, keep=0, log=7, checkpoints=None):
    """The files of a log: of each part the records of one file, of which the last isn't ended. A checkpoint that isn't given is that of a log of no receiver."""
    files = {}
    for file, records in enumerate(parts, first):
        its = head(file, start, before, keep, log, (checkpoints or {}).get(file, EMPTY))
        is_last = file == first + len(parts) - 1
        files[name(file)] = (open_file if is_last else ended_file)(its, records)
        start, before = start + len(records), len(files[name(file)])
    return files


# What a checkpoint is of a log that names no receiver: its next place, no plan, no message, and three numbers that are 0
EMPTY = bytes(8) + b"\0" + b"\0" + bytes(8) + bytes(8) + bytes(4)


# Events


def event(time, tag, rest):
    return number(time) + bytes([tag]) + rest


def planned(time, plan):
    return event(time, 1, text(plan))


def accepted(time, message, to, content):
    return event(time, 2, number(message) + number(len(to), 4) + b"".join(number(it, 4) for it in to) + text(content))


def again(time, receiver, place):
    return event(time, 3, number(receiver, 4) + number(place))


def passed(time, receiver, place, how):
    return event(time, 4, number(receiver, 4) + number(place) + how)


TAKEN, SKIPPED = b"\x00", b"\x02"


def refused(code, reason):
    return b"\x01" + number(code, 4) + text(reason)


def named(time, receiver, its, address):
    return event(time, 5, number(receiver, 4) + text(its) + text(address))


def margin(time, below):
    return event(time, 6, number(below))


def retired(time, below):
    return event(time, 7, number(below))


def state(next_place, receivers, plan=None, last=None, below=0, oldest=0):
    """A checkpoint: receivers by their number, name and address, from which place on something is left, how much, and how many they refused."""
    perhaps = (b"\x00" if it is None else b"\x01" + number(it) for it in (plan, last))
    each = (number(it, 4) + text(its) + text(address) + b"".join(map(number, [*counts, 0, 0, 0][:3])) for it, its, address, *counts in receivers)
    return number(next_place) + b"".join(perhaps) + number(below) + number(oldest) + number(len(receivers), 4) + b"".join(each)
