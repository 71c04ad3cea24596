#!/usr/bin/env python3
# SPDX-License-Identifier: Apache-2.0
"""Whether Wireshark shows what the tap shows: protocol/vhost_user.lua, by the packets of covretin-tap --pcapng.

  tests/programs/try_dissector.py TAP   TAP is the program covretin-tap

Each recording of rust/tests/recordings is replayed, and one more that this makes: each request and reply on both channels by bodies of many sizes,
right and wrong, with odd descriptors, flags and ends. The tap writes each as text and as packets, and tshark reads the packets. Each line of the text
has to be a packet with the same time, session, way, words and numbers, in its columns and in its fields, and with the same findings as its comments.
The longest answer has to be that of the summary, and a size is said to be wrong where it is. Nothing of a real recording may be malformed, and the
dissector may fail at no packet. What docs/TAP.md shows of tshark is printed by it.

It prints what differs, a line each, and last how many packets were compared. Status 0 where nothing differs, 1 where something does, 2 after wrong
arguments, 3 where tshark is missing or loads no dissector.
"""
import glob
import json
import os
import random
import re
import shlex
import shutil
import subprocess
import sys
import tempfile

sys.path.insert(0, os.path.join(os.path.dirname(os.path.realpath(__file__)), "../../scripts/requests"))

from request_tables import parts  # noqa: E402
from requests import entries  # noqa: E402

TOP = os.path.dirname(os.path.dirname(os.path.dirname(os.path.realpath(__file__))))
DISSECTOR = f"{TOP}/protocol/vhost_user.lua"
LINE = re.compile(r" *(-?\d+\.\d{4}) (\d+) (?:((?:rev:)?(?:F>B|B>F)) )?(.*)")
# What stands between several values of a field.
BETWEEN = "\x1f"
FIELDS = ["frame.protocols", "frame.time_epoch", "vhost_user.session", "vhost_user.way_name", "vhost_user.line", "frame.comment", "vhost_user.time",
          "_ws.expert.message", "_ws.expert.group", "vhost_user.since_start"]
# A number of a line, behind the name of its field; a word for a number is none.
NUMBER = re.compile(r"[ \[](?!bytes|body)(\w+)=(0x[0-9a-f]+|\d+)\b")
# How many characters of a column Wireshark keeps at least.
COLUMN = 4000
SIDES = {"F>B": ("frontend", "backend"), "B>F": ("backend", "frontend"), "rev:F>B": ("frontend", "backend"), "rev:B>F": ("backend", "frontend")}
SIZES = [0, 1, 4, 7, 8, 9, 12, 13, 16, 24, 32, 40, 41, 47, 72, 2056, 4096]
CODES = [*range(48), 200, 0xffff_ffff]


class Rows:
    """What is shown: of each event its time, session, way and words, and what is found of it; and the longest answer."""

    def __init__(self, text):
        self.events, self.longest = [], None
        for line in text.split("\n"):
            event = LINE.fullmatch(line)
            if line[:2] in ("! ", "~ "):
                self.events[-1][4].append(line)
            elif line.startswith("= longest answer: "):
                self.longest = line.split(": ", 1)[1]
            elif event:
                self.events.append((*event.groups(), []))


def fields():
    """The names of all fields that bodies have."""
    shown = [it[key] for of in entries().values() for it in of for key in ("shown", "reply_shown") if key in it]
    return sorted({name for it in shown for name, *_ in parts(it)[0] + parts(it)[2] if name})


def numbers(line):
    """The numbers of a line's fields, by their names. What descriptors are called is none of them."""
    found = {}
    for name, number in NUMBER.findall(line.partition(" fds=")[0]):
        found.setdefault(name, []).append(int(number, 0))
    return found


def body(chance, size):
    """Bytes of a body: often such that flags, counts and what is switched have few bits."""
    form = chance.randrange(4)
    if form == 0:
        return bytes(size)
    if form == 1:
        return bytes(chance.choice((0, 0, 0, 1, 2, 3)) for _ in range(size))
    return chance.randbytes(size)


def message(chance, code, size):
    """A message of a recording, of which the flags, the size and the descriptors may be wrong."""
    said = size if chance.random() < 0.9 else chance.choice((0, 8, 5000, 0xffff_ffff))
    flags = chance.choice((1, 5, 9, 13, 0, 2, 0x1_0001, 0xffff_ffff))
    sent = b"".join(it.to_bytes(4, "little") for it in (code, flags, said)) + body(chance, size)
    is_short = chance.random() < 0.05
    sent = sent[:chance.randrange(len(sent))] if is_short else sent
    fds = chance.choices(["socket", "anon_inode:[eventfd]", "file:/memfd:a b (deleted)", "pipe", "file:/a\nb\x7f\u0085\u00e9,c"], k=chance.choice((0, 0, 1, 3)))
    return {"bytes": sent.hex(), "fds": fds, "fds_at": [0] * bool(fds), "body_fds": 0, "cuts": [len(sent)], "short": is_short}


def other_events():
    """Events that are no messages, and a reply that is awaited for long."""
    asked = {"bytes": "010000000100000000000000", "fds": [], "fds_at": [], "body_fds": 0, "cuts": [12], "short": False}
    return [{"way": "-", "connect": "Connection refused (os error 111)"}, {"way": "F>B", "raw": "00ff" * 9}, {"way": "rev:B>F", "raw": ""},
            {"way": "F>B", **asked}, {"way": "-", "connect": "ok", "t": 30}, {"way": "F>B", "end": "Connection reset by peer (os error 104)"},
            {"way": "rev:F>B", "end": "eof"}, {"way": "B>F", "end": "the tap was stopped"}]


def made():
    """A recording of all that may come, the same each time."""
    chance, lines, time = random.Random(1), [], 0.0
    for code in CODES:
        events = [{"way": "-", "connect": "ok"}]
        events += [{"way": way, **message(chance, code, size)} for size in SIZES for way in chance.sample([*SIDES], 4)]
        for event in events + other_events():
            time = round(time + event.pop("t", 0.0001), 4)
            lines.append(json.dumps({"t": time, "session": code + 1, **event}))
    return "".join(f"{line}\n" for line in lines)


class Try:
    """A try of some recordings in a folder of its own, with no settings of whoever runs it."""

    def __init__(self, tap, folder):
        self.tap, self.folder, self.told, self.packets = tap, folder, [], 0
        self.environment = {**os.environ, "HOME": folder, "XDG_CONFIG_HOME": folder, "LC_ALL": "C.UTF-8", "TZ": "UTC"}
        # (a dissector that is installed can't be loaded twice)
        self.loads = [] if "vhost_user" in self.tshark(["-G", "protocols"]) else ["-X", f"lua_script:{DISSECTOR}"]

    def tshark(self, words):
        """What tshark prints. What it says beside that, but for a warning of root, is told."""
        ran = subprocess.run(["tshark", *words], env=self.environment, capture_output=True, text=True, check=False)
        said = [it for it in ran.stderr.splitlines() if not it.startswith("Running as user ")]
        self.told += [f"tshark: {it}" for it in said or ["it failed"] * (ran.returncode != 0)]
        return ran.stdout

    def rows(self, file, words):
        """The rows of a file of packets, each with its cells."""
        printed = self.tshark(["-2", "-r", file, *self.loads, *words])
        return [line.split("\t") for line in printed.split("\n")[:-1]]

    def differs(self, where, what, shown, wanted):
        if shown != wanted:
            self.told.append(f"{where}: {what} is {shown!r}, and the tap has {wanted!r}")

    def columns(self, where, row, event):
        """The columns that a user sees."""
        from_side, to_side = SIDES.get(event[2], ("", ""))
        name = "vhost-user channel" if (event[2] or "").startswith("rev:") else "vhost-user"
        self.differs(where, "a column", [it.strip() for it in row[:3]], [from_side, name, to_side])
        self.differs(where, "its Info", row[3][:COLUMN].rstrip(), event[3][:COLUMN].rstrip())

    def packet(self, where, cells, event):
        """A packet's fields, by their names."""
        time, session, way, words, found = event
        self.differs(where, "the protocols", cells["frame.protocols"], "exported_pdu:vhost_user")
        self.differs(where, "the time", [f"{float(cells[it]):.4f}" for it in ("frame.time_epoch", "vhost_user.since_start")], [time, time])
        self.differs(where, "the session and way", [cells["vhost_user.session"], cells["vhost_user.way_name"]], [session, way or ""])
        self.differs(where, "the line", cells["vhost_user.line"], words)
        for name, wanted in numbers(words).items():
            if f"vhost_user.{name}" in cells:
                self.differs(where, f"the field {name}", [int(it, 0) for it in cells[f"vhost_user.{name}"].split(BETWEEN)], wanted)
        self.differs(where, "the comment", cells["frame.comment"], BETWEEN.join(found))
        if "Lua" in cells["_ws.expert.message"]:
            self.told.append(f"{where}: {cells['_ws.expert.message']}")

    def answers(self, where, packets, longest):
        """The longest answer of all."""
        answers = [(float(it["vhost_user.time"]), it["vhost_user.line"].split(" ")[0]) for it in packets if it["vhost_user.time"]]
        time, name = max(answers, key=lambda it: it[0], default=(0, ""))
        self.differs(where, "the longest answer", f"{time:.4f} s, to {name}" if answers else "none", longest)

    def sizes(self, where, packets, recording):
        """Which messages have another size than their header says: those alone are said to."""
        with open(recording, encoding="utf-8") as file:
            lines = [json.loads(line) for line in file]
        sent = [(f"{it['t']:.4f}", bytes.fromhex(it["bytes"])) for it in lines if not it.get("short", True)]
        wanted = [time for time, it in sent if len(it) >= 12 and int.from_bytes(it[8:12], "little") != len(it) - 12]
        found = [f"{float(it['vhost_user.since_start']):.4f}" for it in packets if "The header says a body of" in it["_ws.expert.message"]]
        self.differs(where, "which sizes are wrong", found, wanted)

    def page(self, file):
        """The page's command of tshark prints what stands below it."""
        with open(f"{TOP}/docs/TAP.md", encoding="utf-8") as page:
            command, *lines = re.search(r"    \$ tshark (.*(?:\n    [^$].*)+)", page.read())[1].split("\n")
        words = [file if it == "session.pcapng" else it for it in shlex.split(command)]
        self.differs("docs/TAP.md", "what tshark prints", self.tshark([*self.loads, *words]).splitlines(), [it[4:] for it in lines])

    def recording(self, recording, is_real):
        where, file = os.path.basename(recording), f"{self.folder}/packets"
        ran = subprocess.run([self.tap, f"--pcapng={file}", "--replay", recording], capture_output=True, text=True, check=False)
        if ran.returncode not in (0, 1):
            self.told.append(f"{where}: the tap ended by {ran.returncode}: {ran.stderr}")
            return
        rows = Rows(ran.stdout)
        names = FIELDS + [f"vhost_user.{name}" for name in fields()]
        words = [it for name in names for it in ("-e", name)]
        packets = [dict(zip(names, row)) for row in self.rows(file, ["-T", "fields", "-E", f"aggregator={BETWEEN}", *words])]
        columns = self.rows(file, ["-T", "tabs", "-o", 'gui.column.format:"S","%s","P","%p","D","%d","I","%i"'])
        self.differs(where, "the number of packets", [len(packets), len(columns)], [len(rows.events)] * 2)
        self.packets += len(packets)
        for at, (cells, row, event) in enumerate(zip(packets, columns, rows.events), 1):
            self.packet(f"{where}:{at}", cells, event)
            self.columns(f"{where}:{at}", row, event)
        self.sizes(where, packets, recording)
        if where == "mig_native-src.jsonl":
            self.page(file)
        if is_real:
            self.answers(where, packets, rows.longest)
            self.told += [f"{where}:{at}: {it['_ws.expert.message']}" for at, it in enumerate(packets, 1) if "117440512" in it["_ws.expert.group"]]


def main(words):
    if len(words) != 1 or words[0].startswith("-"):
        print("usage: tests/programs/try_dissector.py TAP", file=sys.stderr)
        return 2
    if not shutil.which("tshark"):
        print("try_dissector.py: no tshark on PATH", file=sys.stderr)
        return 3
    with tempfile.TemporaryDirectory() as folder:
        it = Try(os.path.abspath(words[0]), folder)
        if "vhost_user" not in it.tshark(["-G", "protocols", *it.loads]):
            print("\n".join([*it.told, "try_dissector.py: tshark loads no dissector"]), file=sys.stderr)
            return 3
        with open(f"{folder}/made.jsonl", "w", encoding="utf-8") as file:
            file.write(made())
        for recording in sorted(glob.glob(f"{TOP}/rust/tests/recordings/*.jsonl")):
            it.recording(recording, True)
        it.recording(f"{folder}/made.jsonl", False)
    print("\n".join([*it.told[:200], f"{it.packets} packets compared, {len(it.told)} differences"]))
    return 1 if it.told or not it.packets else 0


if __name__ == "__main__":
    sys.exit(main(sys.argv[1:]))
