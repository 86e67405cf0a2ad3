"""The senders and receivers of a gateway that is measured: `crowd.rs`, compiled by rustc, in a process of its own."""
import json
import subprocess
import sys
from pathlib import Path

TOP = Path(__file__).resolve().parents[1]
sys.path.insert(0, str(TOP / ".ci"))
from loopback import MESSAGES

# Messages of examples/cases/hospital_day: a report of 0.6 kB and an admission of 0.4 kB.
REPORT, ADMISSION = MESSAGES[0], MESSAGES[1]


class Crowd:
    """Senders of this many messages in all, and receivers of these names, each at a port. A form is a message with the names of its receivers."""

    def __init__(self, room, count, senders, names, *forms):
        program = Path(room) / "crowd"
        if not program.exists():
            subprocess.run(["rustc", "-O", "--edition", "2021", TOP / "bench/crowd.rs", "-o", program], check=True)
        self.process = subprocess.Popen([program, str(count), str(senders), str(len(names))], stdin=subprocess.PIPE, stdout=subprocess.PIPE, text=True, bufsize=1)
        self.names, self.gone = names, dict.fromkeys(names, False)
        self.ports = dict(zip(names, self.process.stdout.readline().split()))
        for message, receivers in forms:
            digits = message.replace(message.split(b"|")[9], b"CONTROLID", 1).hex()
            self.tell(" ".join(["form", digits, *(str(names.index(it)) for it in receivers)]))

    def tell(self, line):
        self.process.stdin.write(line + "\n")

    def look(self):
        """How many messages were accepted, how many senders send, and how many messages were acknowledged."""
        self.tell("look")
        return map(int, self.process.stdout.readline().split())

    def set_gone(self, name, is_gone):
        """A receiver goes or comes back: whether it went now."""
        was, self.gone[name] = self.gone[name], is_gone
        if was != is_gone:
            self.tell(f"{'gone' if is_gone else 'there'} {self.names.index(name)}")
        return is_gone and not was

    def end(self):
        """What was found. All connections end."""
        self.tell("end")
        return json.loads(self.process.stdout.readline())
