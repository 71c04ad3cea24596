#!/usr/bin/env python3
# SPDX-License-Identifier: Apache-2.0
"""Looks at the pages of `covretin-tap --html` with the eyes of a browser, which is Chromium without a window.

  tests/programs/try_drawn.py arrows TAP RECORDING    counts the arrows in a picture of the recording's page: one for each message, with its
                                               head at the side that it goes to
  tests/programs/try_drawn.py quick TAP RECORDING     makes a page of 10,000 messages out of the recording, and says how much of a processor
                                               it takes to load it and to filter it

TAP is the program covretin-tap. Limits are of processor time, so a busy machine fails none.
Status 0 where all is so; 1 where some is not, which a line says; 2 after wrong arguments.
"""
import html
import json
import os
import re
import resource
import subprocess
import sys
import tempfile

sys.path.insert(0, os.path.join(os.path.dirname(os.path.realpath(__file__)), "../../scripts"))

from patience import LimitSpent, communicate  # noqa: E402
from picture import Picture  # noqa: E402

# The seconds of a processor after which a browser has failed.
LIMIT = 120

# What a message of each way looks like: the variable of its colour, and the side of its head.
LOOKS = {"F>B": ("frontend", "right"), "B>F": ("backend", "left"), "rev:B>F": ("channel", "left"), "rev:F>B": ("channel", "right")}
# The fewest pixels of a colour in a row of a picture that are an arrow. The legend's are shorter.
SHORTEST_ARROW = 60
# The most pixels between two lines of the same arrow.
GAP = 3

MESSAGES = 10_000
FILTERS = 40
# The most seconds of a processor that the long page takes to load, beside those of an empty page; and those of one change of the filter.
MOST_TO_LOAD = 5
MOST_TO_FILTER = 0.5
# By this rule of the style only what is in sight is drawn. Without it a change of the filter takes several times as long, and it has to
# take at least so many times as long, whatever the machine.
IN_SIGHT = ("content-visibility: auto", "content-visibility: visible")
LEAST_GAIN = 2


class Failed(Exception):
    """A page is not as it has to be."""


def lines_of(recording):
    with open(recording, encoding="utf-8") as file:
        return [json.loads(line) for line in file]


def page_of(tap, lines, folder):
    """The page of these lines of a recording."""
    with open(f"{folder}/recording.jsonl", "w", encoding="utf-8") as file:
        file.writelines(json.dumps(line) + "\n" for line in lines)
    subprocess.run([tap, f"--html={folder}/page.html", f"--replay={folder}/recording.jsonl"], stdout=subprocess.DEVNULL, check=False)
    with open(f"{folder}/page.html", encoding="utf-8") as file:
        return file.read()


def browse(text, folder, *words):
    """Shows a page: what the browser prints, and how many seconds of a processor it took."""
    with open(f"{folder}/shown.html", "w", encoding="utf-8") as file:
        file.write(text)
    # Root has no sandbox.
    root = ["--no-sandbox"] if os.geteuid() == 0 else []
    command = ["chromium", "--headless", *root, "--disable-gpu", "--hide-scrollbars", f"--user-data-dir={folder}/profile", *words]
    before = processor_time()
    with subprocess.Popen([*command, f"file://{folder}/shown.html"], stdout=subprocess.PIPE, stderr=subprocess.PIPE) as process:
        try:
            said, complained = communicate(process, "the page is shown", LIMIT)
        except LimitSpent:
            process.kill()
            raise
    if process.returncode != 0:
        raise Failed(f"chromium: status {process.returncode}\n{complained.decode(errors='replace')}")
    return said.decode(), processor_time() - before


def processor_time():
    used = resource.getrusage(resource.RUSAGE_CHILDREN)
    return used.ru_utime + used.ru_stime


# ---- arrows


def with_channel(lines):
    """The lines, and before the ends two messages of the backend channel, which no recording has."""
    ends = next(at for at, line in enumerate(lines) if "end" in line)
    last = lines[ends - 1]

    def message(way, flags, body):
        sent = b"".join(number.to_bytes(4, "little") for number in (2, flags, len(body))) + body
        return {**last, "way": way, "bytes": sent.hex(), "code": 2, "flags": flags, "size": len(body), "fds": [], "fds_at": []}

    return lines[:ends] + [message("rev:B>F", 9, b""), message("rev:F>B", 5, bytes(8))] + lines[ends:]


def colour_of(page, name):
    """The three bytes of a colour of the page."""
    return bytes.fromhex(re.search(rf"--{name}: #([0-9a-f]{{6}});", page)[1])


def arrows_in(picture, colour):
    """The arrows of this colour, by the sides of their heads: how many there are of each."""
    heads = {"left": 0, "right": 0}
    last = -GAP - 1
    for y in range(picture.height):
        line = picture.places_of(y, colour)
        if len(line) < SHORTEST_ARROW:
            continue
        if y - last > GAP:
            middle = (line[0] + line[-1]) / 2
            # Above its line only the head is, beside a piece of the side's own line, which is thinner.
            above = picture.places_of(y - 1, colour)
            right = sum(x > middle for x in above)
            heads["right" if right > len(above) - right else "left"] += 1
        last = y
    return heads


def arrows(tap, recording, folder):
    lines = with_channel(lines_of(recording))
    page = page_of(tap, lines, folder)
    messages = [line["way"] for line in lines if "code" in line]
    # All rows are in sight, which are 28 pixels high, below a head.
    size = f"--window-size=1200,{28 * len(lines) + 500}"
    browse(page, folder, size, f"--screenshot={folder}/page.png")
    with open(f"{folder}/page.png", "rb") as file:
        picture = Picture(file.read())
    seen = {name: arrows_in(picture, colour_of(page, name)) for name in ("frontend", "backend", "channel")}
    for way, (name, side) in LOOKS.items():
        if messages.count(way) == 0 or seen[name][side] != messages.count(way):
            raise Failed(f"{messages.count(way)} messages go {way}, and {seen[name][side]} such arrows are drawn")
    if sum(sum(heads.values()) for heads in seen.values()) != len(messages):
        raise Failed(f"{len(messages)} messages came, and the arrows are {seen}")
    return f"{len(messages)} arrows"


# ---- a long session

# Filters again and again, each time as far as the places of all that is shown; the title says what was shown.
DRIVER = """<script>addEventListener("load", () => {
    const control = name => document.getElementById(name);
    document.title = JSON.stringify(WORDS.map(word => {
        control("search").value = word;
        control("search").dispatchEvent(new Event("input"));
        const drawn = document.body.offsetHeight;
        return [word, control("shown").textContent, document.querySelectorAll("details:not([hidden])").length, drawn];
    }));
});</script></body>"""


def long_session(lines):
    """Sessions like this one, until they have enough messages."""
    messages = sum("code" in line for line in lines)
    for session in range(1, -(-MESSAGES // messages) + 1):
        for line in lines:
            yield {**line, "session": session, "t": round(line["t"] + 100 * session, 4)}


def driven(page, words):
    """The page, whose filter is set to these words; its policy would not have a script that is not its own."""
    page = re.sub(r"<meta http-equiv=[^>]*>", "", page)
    return page.replace("</body>", DRIVER.replace("WORDS", json.dumps(words)))


def shown_by(dom):
    """What the driver says."""
    return json.loads(html.unescape(re.search(r"<title>(.*?)</title>", dom)[1]))


def time_to_filter(page, codes, folder):
    """How long the page takes to load, and each change of its filter, once what it shows is right."""
    _, loading = browse(driven(page, []), folder, "--dump-dom")
    words = ["GET_FEATURES", "", "nothing has these words", "ring=0"] * (FILTERS // 4)
    dom, filtering = browse(driven(page, words), folder, "--dump-dom")
    wanted = {"GET_FEATURES": codes.count(1), "": len(codes), "nothing has these words": 0}
    for word, told, count, height in shown_by(dom):
        if count != wanted.get(word, count):
            raise Failed(f"{word!r} shows {count} messages, and not {wanted[word]}: {told}")
        if height < 20 * count:
            raise Failed(f"{count} messages have no room in {height} pixels")
    return loading, (filtering - loading) / FILTERS


def quick(tap, recording, folder):
    lines = list(long_session(lines_of(recording)))
    page = page_of(tap, lines, folder)
    if IN_SIGHT[0] not in page:
        raise Failed("no rule of the style has only what is in sight drawn")
    codes = [line["code"] for line in lines if "code" in line]
    _, empty = browse("<!DOCTYPE html><title>empty</title>", folder, "--dump-dom")
    loading, to_filter = time_to_filter(page, codes, folder)
    to_load = loading - empty
    if to_load > MOST_TO_LOAD or to_filter > MOST_TO_FILTER:
        raise Failed(f"{len(codes)} messages take {to_load:.1f} s of a processor to load, and {to_filter:.2f} s to filter")
    _, all_drawn = time_to_filter(page.replace(*IN_SIGHT), codes, folder)
    if all_drawn < LEAST_GAIN * to_filter:
        raise Failed(f"to filter takes {to_filter:.2f} s of a processor, and {all_drawn:.2f} s where all rows are drawn")
    return f"{len(codes)} messages, {to_load:.1f} s of a processor to load, {to_filter * 1000:.0f} ms to filter"


def main(words):
    tries = {"arrows": arrows, "quick": quick}
    if len(words) != 3 or words[0] not in tries:
        print(__doc__, end="", file=sys.stderr)
        return 2
    with tempfile.TemporaryDirectory() as folder:
        try:
            print(tries[words[0]](words[1], words[2], folder))
        except (Failed, LimitSpent) as failed:
            print(failed)
            return 1
    return 0


if __name__ == "__main__":
    sys.exit(main(sys.argv[1:]))
