#!/usr/bin/env python3
# SPDX-License-Identifier: Apache-2.0
"""The tables of requests, from protocol/requests.toml: the word requests of scripts/check.py, by --write of which they are written.

  scripts/requests/requests.py NAME..   prints the entries of these requests or calls, and where else they stand by the same names

Written are those that scripts/requests/request_tables.py names: codes and names in Rattle, Rust and C; what the headers for C say of arguments and replies;
which calls there are in lines, with their words and help, and in the players of scripts; how a log copies and compares calls; what the tap shows
and expects of each; what Wireshark shows; and why one was refused, as the tap says it and the logs in C and Rust. Compared are others, by hand: the
calls' declarations in C and Rust and those of a device; records, codes and features on the pages of docs/protocol; the names of bits in Wireshark;
that each request has a script; and that each reason is said by its name, and nowhere in words of its own.
A request that is `like` another one has rows wherever that one has them: --write copies them with its own names, each behind the other's, and tells what
it cannot copy; else it tells which files lack them. Where an entry lacks a key, or has a value that no table takes, a line says which, and nothing is written.
Status 1 where that is so; 2 where there is no request of a name.
"""
import glob
import json
import os
import re
import subprocess
import sys

from entries import Malformed, entries
from request_tables import BEGINS, ENDS, SOURCE, TABLES, VALUE, by_hand, camel, own_calls, served, written

TOP = os.path.dirname(os.path.dirname(os.path.dirname(os.path.realpath(__file__))))
# Calls for C that are forms of another one.
FORMS_IN_C = {"set_log_base_alone", "get_config_bytes"}
# A feature that a frontend needs, and that a backend does not ask for.
UNCHECKED = "DEVICE_STATE"
PAGES = {"asking": "docs/protocol/asking.md", "serving": "docs/protocol/serving.md", "channels": "docs/protocol/channels.md"}


def read(path):
    with open(f"{TOP}/{path}", encoding="utf-8") as file:
        return file.read()


class Told:
    """What differs, a line each."""

    def __init__(self):
        self.lines, self.compared = [], 0

    def same(self, where, what, said, wanted):
        self.compared += 1
        if said != wanted:
            self.lines.append(f"{where}: {what} is {said!r}, and in {SOURCE} {wanted!r}")

    def has(self, where, what, is_there):
        self.same(where, what, "there" if is_there else "missing", "there")

    def all(self, where, what, said, wanted):
        """Two tables, by their keys."""
        for key in sorted({*said, *wanted}, key=str):
            self.same(where, f"{what} {key}", said.get(key), wanted.get(key))


def tables(kinds, told, writes):
    """The tables that are made of it: whether each stands as it is to be; or they are written."""
    marked = subprocess.run(["git", "-C", TOP, "grep", "-l", f"generated from {SOURCE}: ", "--", ".", ":!scripts", ":!mutants"], capture_output=True, text=True, check=False)
    told.same("scripts/requests/request_tables.py", "the files with a table", sorted(marked.stdout.split()), sorted(TABLES))
    for path, of in TABLES.items():
        text = read(path)
        wanted, wrong = written(path, text, kinds)
        told.compared += len(of)
        told.lines += wrong
        if wanted != text and writes:
            with open(f"{TOP}/{path}", "w", encoding="utf-8") as file:
                file.write(wanted)
        elif wanted != text:
            at = next(at for at, (line, other) in enumerate(zip(text.split("\n"), wanted.split("\n") + [None])) if line != other)
            told.lines.append(f"{path}:{at + 1}: its tables are not those of {SOURCE}")


def calls(kinds, told):
    """The calls of a frontend, and of a device to a display, and their words in lines."""
    words = {it["call"]: it.get("words", "") for it in kinds["frontend"] + kinds["call"] if "call" in it}
    asked = set(re.findall(r"covretin_ask_(\w+)\(", read("include/covretin.h"))) - FORMS_IN_C
    told.all("include/covretin.h", "the call", dict.fromkeys(asked, True), dict.fromkeys({*own_calls(kinds)} - {"set_hdr_flags"}, True))
    asked = set(re.findall(r"covretin_display_ask_(\w+)\(", read("include/covretin_display.h")))
    told.all("include/covretin_display.h", "the call", dict.fromkeys(asked, True), {it["call"]: True for it in kinds["display"]})
    rust = set(re.findall(r"^    (?:pub )?fn (\w+)\(", read("rust/src/vhost_user/frontend.rs"), re.MULTILINE))
    for call in words:
        told.has("rust/src/vhost_user/frontend.rs", f"the call {call}", call in rust)
    # (in Rattle a request without a call of its own does not reach a device)
    for path, lacks in (("crates/vhost_device/src/device.rt", {"other"}), ("rust/src/vhost_user/device.rs", set())):
        device = set(re.findall(r"\bfn (\w+)[<(]", read(path)))
        told.all(path, "the device's call", dict.fromkeys(device & {*served(kinds)}, True), dict.fromkeys({*served(kinds)} - lacks, True))


def rows(page, head):
    """The rows of the table of a page whose first line is this: for each thing named in a row's first cell its other cells. Left out is the
    state Listen, which other rows say more of."""
    found = {}
    for line in read(page).partition(head)[2].partition("\n\n")[0].splitlines()[2:]:
        first, *cells = [it.strip() for it in line.strip("|").split("|")]
        if "in Listen" in first:
            continue
        for name in re.split(r"[,;] +", first):
            found.setdefault(name.split(" ")[0], []).append(cells)
    return found


def plain(record):
    """A record without what comes behind it."""
    return record.partition(",")[0]


def pages(kinds, told):
    page = PAGES["asking"]
    asked = rows(page, "| Call | Checks | Sends | Answer |")
    for it in kinds["frontend"]:
        if "call" not in it:
            continue
        told.has(page, f"the row of {it['call']}", it["call"] in asked)
        for checks, sends, answer in asked.get(it["call"], []):
            told.has(page, f"the record {it.get('body')} of {it['call']}", plain(it.get("body", "")) in sends)
            told.has(page, f"a descriptor of {it['call']}", ("fds" in it) <= ("fd" in sends))
            told.has(page, f"the feature {it.get('feature')} of {it['call']}", it.get("feature", "") in checks)
            told.has(page, f"the reply {it['reply']} to {it['call']}", it["reply"] in ("ack", "Empty") or plain(it["reply"]) in answer or answer in ("num", "0, else BackendInternalError") or "0x100" in answer or answer.startswith("same offset"))
    page = PAGES["serving"]
    served = rows(page, "| Request | Checks | After the device's call |")
    unserved = read(page).partition("Not served:")[2].partition(".")[0]
    named = set(served) | {name for name in re.findall(r"[A-Z_]{4,}", unserved)}
    told.all(page, "the request", dict.fromkeys(named - {"any"}, True), {it["name"]: True for it in kinds["frontend"]})
    for it in kinds["frontend"]:
        told.has(page, f"that {it['name']} is {'' if 'c' in it else 'not '}served", ("c" in it) == (it["name"] in served) == (not re.search(rf"\b{it['name']}\b", unserved)))
        for checks, after in served.get(it["name"], []):
            told.has(page, f"the record {it.get('body')} of {it['name']}", plain(it.get("body", "")) in checks or "the rest as" in checks)
            told.has(page, f"the feature {it.get('feature')} of {it['name']}", it.get("feature", "") in checks or it.get("feature") == UNCHECKED)
    page = PAGES["channels"]
    found = rows(page, "| Request | Body | Call |")
    for it in kinds["backend"]:
        if "c" in it:
            body = found.get(it["name"], [["nothing"]])[0][0]
            told.has(page, f"the record {it.get('body', 'none')} of {it['name']}", it.get("body", "none") == body)
    found = {}
    for line in read(page).partition("| Call | Code | Record, payload | Awaited |")[2].partition("\n\n")[0].splitlines()[2:]:
        names, numbers, records, awaited = [it.strip() for it in line.strip("|").split("|")]
        names, numbers, records = names.split(", "), numbers.split(", "), records.split("; ")
        for at, name in enumerate(names):
            found[name] = (int(numbers[at]), records[min(at, len(records) - 1)].partition(",")[0], awaited)
    told.all(page, "code, record and reply of", found, {it["call"]: (it["code"], plain(it.get("body", "")), it.get("reply", "")) for it in kinds["display"]})


def scripts(kinds, told):
    """That each request that is served has a script in which it comes, and each call one in which it is made."""

    def text(*names):
        return "\n".join(read(os.path.relpath(path, TOP)) for name in names for path in sorted(glob.glob(f"{TOP}/tests/scripts/{name}*.txt")))

    def comes(code, where):
        return re.search(rf"^request (?:\[.*?\] )?{code.to_bytes(4, 'little').hex()}\b", where, re.MULTILINE)

    def is_made(call, where):
        return re.search(rf"^call {call}\b", where, re.MULTILINE)

    served, asking, reverse, display, lines = text("served_"), text("asking_"), text("reverse_"), text("display"), text("lines_")
    for it in kinds["frontend"]:
        told.has("tests/scripts/served_*.txt", f"a request {it['name']}", comes(it["code"], served))
    for it in kinds["frontend"] + kinds["call"]:
        if "call" in it:
            told.has("tests/scripts/asking_*.txt", f"a call {it['call']}", is_made(it["call"], asking))
            told.has("tests/scripts/lines_*.txt", f"a line {it['call']}", re.search(rf"^line {it['call']}\b", lines, re.MULTILINE))
    for it in kinds["backend"]:
        told.has("tests/scripts/reverse_*.txt", f"a request {it['name']}", comes(it["code"], reverse))
    for it in kinds["display"]:
        told.has("tests/scripts/display.txt", f"a call {it['call']}", is_made(it["call"], display))


def dissector(kinds, told):
    """The bits that the dissector for Wireshark names, beside those that the tap names."""
    page, records, shown = "protocol/vhost_user.lua", read("rust/src/vhost_user/message.rs"), read("rust/src/tap/layout.rs")

    def flags(struct):
        block = records.partition(f"pub struct {struct}: ")[2].partition("\n    }")[0]
        numbers = re.findall(r"const (\w+) = (?:1 << (\d+)|0x([0-9a-f]+));", block)
        return {int(shift) if shift else int(bits, 16).bit_length() - 1: name for name, shift, bits in numbers}

    virtio = shown.partition("const VIRTIO")[2].partition("];")[0]
    wanted = {"Features": {int(bit): name for bit, name in re.findall(r'\((\d+), "(\w+)"\)', virtio)}, "ProtocolFeatures": flags("VhostUserProtocolFeatures"),
              "VringFlags": flags("VhostUserVringAddrFlags"), "ConfigFlags": flags("VhostUserConfigFlags")}
    for form, bits in wanted.items():
        found = re.search(rf"^    {form} = \{{(.*?)\}}", read(page), re.MULTILINE | re.DOTALL)
        told.all(page, f"the name in {form} of bit", {int(bit): name for bit, name in re.findall(r'\[(\d+)\] = "(\w+)"', found[1] if found else "")}, bits)


# So many letters of a text of a reason, without a value among them, are not written by hand anywhere else.
MOST_SAID = 16


def reasons(kinds, told):
    """That each reason is said by some code, by its name, and that no code has its words."""
    paths = [*glob.glob(f"{TOP}/c/covretin_*.[ch]"), *glob.glob(f"{TOP}/rust/src/**/*.rs", recursive=True)]
    texts = {os.path.relpath(path, TOP): by_hand(read(os.path.relpath(path, TOP))) for path in sorted(paths)}
    all_of_it = "\n".join(texts.values())
    literals = {path: re.findall(r'"((?:[^"\\\n]|\\.)*)"', text) for path, text in texts.items()}
    for it in kinds["reason"]:
        name = it["name"]
        told.has(SOURCE, f"what says the reason {name}", re.search(rf"\bREASON_{name.upper()}\b|\breasons::({name}\(|{name.upper()}\b)", all_of_it))
    for it in kinds["reason"] + kinds["rule"]:
        said = max((part.strip(" :,;") for part in VALUE.split(it["text"])[::4]), key=len)
        for path, found in literals.items():
            told.has(path, f"{said!r} only by the name of the reason {it['name']}", len(said) < MOST_SAID or not any(said in literal for literal in found))


# -- Rows of a request that is like another one --

# Where rows are copied. What is believed, Row.antt, Ask.antt and AnswerTable.antt, is written by hand.
PLACES = ["crates/*/src/*", "crates/*/specs/*", "crates/*/proofs/*", "include/*", "c/ask_calls.c", "rust/src/*", "rust/examples/serve.rs",
          "rust/examples/bench.rs", "rust/tests/common/device.rs", "rust/tests/served_names.rs",
          "docs/protocol/asking.md", "docs/protocol/serving.md",
          ":!crates/vhost_*tests/*", ":!crates/vhost_promises/*", ":!crates/vhost_protocol/specs/Row.antt", ":!crates/vhost_protocol/specs/Ask.antt",
          ":!crates/vhost_protocol/specs/AnswerTable.antt"]
LEMMA = re.compile(r" *(?:pub )?((\w+)-[\w-]+) : ")
COMMENT = re.compile(r" *(?:/\*|///?|\*|--) ")
FUNCTION = re.compile(r'^ *(?:pub(?:\(crate\))? )?(?:unsafe )?(?:extern "C" )?(?:fn \w+[<(]|static .*\(.*[,)]$)')


def names_of(it):
    """The names of a request, its calls and its variants in Rattle."""
    device = it.get("device", it["call"])
    return [it["name"], it["call"], device, camel(it["call"]), camel(device)]


class Copy:
    """How the rows of a request become those of one that is like it. Lemmas of a file about the one alone have other names."""

    def __init__(self, model, it, lemmas=()):
        self.model, self.it = model, it
        self.pairs = list(dict.fromkeys(zip(names_of(model), names_of(it)))) + [(lemma, f"{lemma.partition('-')[0]}-{it['call']}") for lemma in lemmas]
        self.words = [(str(model["code"]), str(it["code"])), (model.get("feature", "no feature"), it.get("feature", "no feature"))]
        self.doc = f"/// {it['text'][0].upper()}{it['text'][1:]} (VHOST_USER_{it['name']})."
        self.of = re.compile("|".join(f"(?<![A-Za-z]){re.escape(old)}(?![A-Za-z_])" for old, _ in self.pairs))
        self.new = re.compile("|".join(f"(?<![A-Za-z]){re.escape(new)}(?![A-Za-z_])" for _, new in self.pairs))

    def copied(self, text):
        for old, new in self.pairs:
            text = re.sub(rf"(?<![A-Za-z]){re.escape(old)}(?![A-Za-z_])", new, text)
        for old, new in self.words:
            text = re.sub(rf"\b{re.escape(old)}\b", new, text)
        return text

    def is_by_feature(self, line):
        old, new = self.words[1]
        return old != new and re.search(rf"\b{old}\b", line)

    def unit(self, lines):
        """A unit, where what is said of it is what the request is for."""
        said = [at for at, line in enumerate(lines) if re.match(" *///", line)]
        return [re.sub(r"///.*", lambda _: self.doc, self.copied(it)) for at, it in enumerate(lines) if at not in said[1:]]

    def for_file(self, path, text):
        """The same with a file's lemmas, whose statements name the one and whose names do not."""
        found = [LEMMA.match(line) for line in text.split("\n") if path.endswith(".antt") and LEMMA.match(line) and self.of.search(line)]
        return Copy(self.model, self.it, [it[1] for it in found if not self.of.search(it[1])])

    def lacks(self, text):
        """Whether it stands in fewer lines of a file than the other one, but for what is said of them and for tables that are made."""
        lines = [it for it in by_hand(text).split("\n") if not COMMENT.match(it)]
        return sum(bool(self.new.search(it)) for it in lines) < sum(bool(self.of.search(it)) for it in lines)

    def beside(self, line):
        """A line of a list in which both stand."""
        separator = " | " if "|" in line else ", "
        return re.sub(rf"((?:\w+::)*(?:{self.of.pattern}))", lambda it: it[1] + separator + self.copied(it[1]), line)


def end_of(lines, at):
    """Where the unit ends that begins with this line: a function, what its brackets hold, or what is indented below it."""
    if FUNCTION.match(lines[at]):
        indent = re.match(" *", lines[at])[0]
        has_body = lines[at].endswith("{")
        while not (lines[at].startswith(indent + "}") or lines[at].endswith(";") and not has_body):
            at += 1
            has_body = has_body or lines[at] == indent + "{"
        return at
    depth = 0
    for last in range(at, len(lines)):
        depth += len(re.findall(r"[([{]", lines[last])) - len(re.findall(r"[)\]}]", lines[last]))
        if depth <= 0:
            return last
    return at


def begin_of(lines, at):
    """Where it begins: a function with what is said of it above."""
    begin = at
    while FUNCTION.match(lines[at]) and re.match(r" *(?://|#\[)", lines[begin - 1]):
        begin -= 1
    return begin


def is_list(path, line, copy):
    """Whether others stand beside it: names that are used, what is said of several, or a pattern."""
    if re.match("(?:ghost |pub )?use ", line) or " ruleset " in line:
        return True
    if COMMENT.match(line):
        return "," in line and not copy.is_by_feature(line)
    return not path.endswith(".md") and bool(re.search(r"\w \| +(?:=>|\||$)|\w +\| +\w", copy.of.sub("", line)))


def end_in_logic(lines, at, last):
    """The same where a lemma ends with its proof, and a row with what is indented below it."""
    indent = re.match(" *", lines[at])[0] + "  "
    while last + 1 < len(lines) and lines[last + 1] and (LEMMA.match(lines[at]) or lines[last + 1].startswith(indent)):
        last += 1
    return last


def with_rows(path, text, copy):
    """The text with the rows of the other request, and what could not be copied."""
    lines, made, left, at, is_made = text.split("\n"), [], [], 0, False
    while at < len(lines):
        line = lines[at]
        is_made = bool(BEGINS.match(line)) or is_made and not ENDS.match(line)
        last = at
        if is_made or not copy.of.search(line):
            made.append(line)
        elif is_list(path, line, copy):
            made.append(line if copy.new.search(line) else copy.beside(line))
        elif COMMENT.match(line):
            made.append(line)
            left += [f"{path}:{at + 1}: {line.strip()}"] if copy.is_by_feature(line) else []
        else:
            begin, last = begin_of(lines, at), end_of(lines, at)
            if path.endswith(".antt"):
                last = end_in_logic(lines, at, last)
            unit = copy.unit(lines[begin:last + 1])
            stands_apart = last + 1 < len(lines) and not lines[last + 1] and not lines[begin - 1]
            made += lines[at:last + 1]
            if "\n".join(unit) not in text:
                made += ([""] if stands_apart else []) + unit
        at = last + 1
    return "\n".join(made), left


def files_with_rows(top, copy):
    listed = subprocess.run(["git", "-C", top, "ls-files", "--", *PLACES], capture_output=True, text=True, check=True)
    for path in listed.stdout.splitlines():
        with open(f"{top}/{path}", encoding="utf-8") as file:
            text = file.read()
        if copy.of.search(by_hand(text)):
            yield path, text


def like(top, kinds, told, writes):
    """Whether each request that is like another has rows where that one has some; or they are copied."""
    by_name = {it["name"]: it for it in kinds["frontend"]}
    for it in kinds["frontend"]:
        if "like" not in it:
            continue
        copy = Copy(by_name[it["like"]], it)
        for path, text in files_with_rows(top, copy):
            if copy.of.search(path):
                own = copy.copied(path)
                if writes and not os.path.exists(f"{top}/{own}"):
                    os.makedirs(os.path.dirname(f"{top}/{own}"), exist_ok=True)
                    with open(f"{top}/{own}", "w", encoding="utf-8") as file:
                        file.write(copy.copied(text))
                told.has(own, f"what {path} is of {it['like']}", os.path.exists(f"{top}/{own}"))
                continue
            if writes and copy.lacks(text):
                text, left = with_rows(path, text, copy.for_file(path, text))
                told.lines += [f"by hand: {line}" for line in left]
                with open(f"{top}/{path}", "w", encoding="utf-8") as file:
                    file.write(text)
            told.has(path, f"{it['name']}, which is like {it['like']}", not copy.lacks(text))


def show(names):
    """The entries of these names, and where they stand."""
    try:
        kinds = entries(read(SOURCE))
    except Malformed as wrong:
        print("\n".join(wrong.args), file=sys.stderr)
        return 1
    for name in names:
        found = [it for kind in kinds.values() for it in kind if name in (it.get("name"), it.get("call"))]
        if not found:
            print(f"requests: no request and no call is named {name}", file=sys.stderr)
            return 2
        for it in found:
            print("\n".join(f"{key} = {json.dumps(value)}" for key, value in it.items()))
            words = "|".join({it.get("name", it.get("call")), it.get("call", it.get("name"))})
            subprocess.run(["git", "-C", TOP, "grep", "-c", "-w", "-E", words, "--", ".", ":!generated"], check=False)
    return 0


def requests(write):
    try:
        kinds, told = entries(read(SOURCE)), Told()
    except Malformed as wrong:
        return list(wrong.args)
    like(TOP, kinds, told, write)
    tables(kinds, told, write)
    for check in (calls, pages, scripts, dissector, reasons):
        check(kinds, told)
    return told.lines


if __name__ == "__main__":
    sys.exit(show(sys.argv[1:]))
