"""Streams that their senders frame badly, and what a session's line says of each. What is in a block is answered, whatever stands between blocks."""
from loopback import ANSWERS, MESSAGES

REPORT = MESSAGES[0]
# The byte of its FS, from 1.
END = len(REPORT) - 1
LOST = "fault 4: the stream can't be read on: frame fault 3"
OUTSIDE = "bytes that no block has, since byte {}: no VT begins one (MLLP)"
LINE_FEED = "FS with LF behind it and not CR, at byte {}: no block ends there (MLLP)"
NO_RETURN = "FS without CR behind it, at byte {}: no block ends there (MLLP)"
# An answer to what can't be read, since the first FS is in its block.
UNREADABLE = b"\x0bMSH|^~\\&|||||NOW||ACK^^ACK|G0|P|2.5.1\rMSA|AR\rERR|||207^Application internal error^HL70357|E\r\x1c\r"


def counts(aa, ar=0):
    return f"answered {aa + ar}, AA {aa}, AE 0, AR {ar}"


def cases():
    """What is sent, the answers, what is said of the framing (None where nothing is), and how the session ends."""
    good, content = ANSWERS[0], REPORT[1:-2]
    yield content + b"\r", [], OUTSIDE.format(1), counts(0)
    yield b"\r\n" + REPORT, [good], OUTSIDE.format(1), counts(1)
    yield REPORT[:-1] + b"\n", [], LINE_FEED.format(END), LOST
    yield REPORT[:-1], [], NO_RETURN.format(END), LOST
    yield REPORT[:-1] + REPORT, [UNREADABLE], NO_RETURN.format(END), counts(0, 1)
    yield REPORT + REPORT[:-1] + b"\x1c\r", [good, UNREADABLE], NO_RETURN.format(len(REPORT) + END), counts(1, 1)
    # (once a connection)
    yield (REPORT + b"\n") * 3, [good] * 3, OUTSIDE.format(len(REPORT) + 1), counts(3)
    yield REPORT * 2 + content + b"\x1c\r" + REPORT, [good] * 3, OUTSIDE.format(2 * len(REPORT) + 1), counts(3)
    yield REPORT * 3, [good] * 3, None, counts(3)
