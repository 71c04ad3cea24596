# SPDX-License-Identifier: Apache-2.0
"""Reads the entries of protocol/requests.toml, and says which of them lack a key, or have a value that no table could take."""
import json
import re

from request_tables import OF_A_RING, READERS, SOURCE, TAKEN, TAKEN_ALONE, TAKES

KEYS = {"code", "name", "like", "call", "device", "wider", "words", "usage", "args", "body", "fds", "reply", "feature", "c", "wants", "shown", "reply_shown", "text"}

# The keys that each entry of a kind has.
NEEDED = {"frontend": ["code", "name", "reply", "reply_shown", "text"], "backend": ["code", "name", "text"], "display": ["code", "name", "call", "text"],
          "call": ["call", "words", "usage", "text"], "asked": ["code", "name", "device", "c"], "reason": ["name", "text"],
          "rule": ["code", "name", "text"]}
# The keys that an entry of a kind has where it has another one.
NEEDED_BESIDE = {"frontend": {"words": ["call", "usage", "args"], "body": ["shown"], "like": ["call"]},
                 "backend": {"c": ["call"], "body": ["shown"]}, "call": {"c": ["code", "name"]}}


class Malformed(Exception):
    """What is wrong with the file, a line each."""


def read_entries(text):
    """The entries by their kind, each with the line where it begins, and what is wrong with lines. Of TOML are read tables of a list, and a number or a
    text behind each key."""
    found, wrong, entry = {kind: [] for kind in NEEDED}, [], None
    for number, line in enumerate(text.split("\n"), 1):
        head = re.fullmatch(r"\[\[(\w+)\]\]", line)
        pair = re.fullmatch(r"(\w+) = (\d+|\".*\")", line)
        if head and head[1] in found:
            entry = {}
            found[head[1]].append((number, entry))
        elif pair and pair[1] in KEYS and entry is not None and pair[1] not in entry:
            entry[pair[1]] = json.loads(pair[2])
        elif line and not line.startswith("#"):
            wrong.append(f"{SOURCE}:{number}: this line is no head of an entry, and no key that is new in it with a number or a text: {line}")
    return found, wrong


def lacking(kind, it):
    """The keys that an entry lacks, each with the reason why it needs it."""
    for key in NEEDED[kind]:
        if key not in it:
            yield f"it lacks the key {key}, which each entry of [[{kind}]] has"
    if kind == "frontend" and "c" in it and not {"call", "device"} & {*it}:
        yield "it lacks the key call or device, of which an entry of [[frontend]] with c has one"
    for beside, keys in NEEDED_BESIDE.get(kind, {}).items():
        for key in keys:
            if beside in it and key not in it:
                yield f"it lacks the key {key}, which an entry of [[{kind}]] with {beside} has"


def wrong_fields(it):
    """The fields to be shown that have not the form of one."""
    for key in ("shown", "reply_shown"):
        plain = re.sub(r"\w+\((.*)\)$|\bbytes$", r"\1", it.get(key, ""))
        for part in plain.split():
            if not re.fullmatch(r"\w*:\d+(:\w+)?", part):
                yield f"{part!r} of its key {key} is no field, as name:bytes or name:bytes:Form"


def wrong_words(kind, it):
    """The words of its call that no table takes."""
    words = it.get("words", "")
    unknown = sorted(set(words) - set(READERS) - set("*bnf"))
    if unknown:
        yield f"{unknown[0]!r} of its key words stands for no word of a line"
    elif kind == "frontend" and words not in TAKES and not (OF_A_RING.match(it.get("call", "")) and words == "l"):
        yield f"TAKES in scripts/requests/request_tables.py has no form of a call that takes the words {words!r}"


def wrong_replies(kind, it):
    """What the headers for C say of it, where no call in C is read from that."""
    if kind not in ("frontend", "asked") or "c" not in it:
        return
    if not re.search(r"\breply_\w+", it["c"]):
        yield "its key c names no call that replies, as '; reply_number'"
        return
    gives, semicolon, _ = it["c"].partition(";")
    gives = re.match(r"\w*", gives)[0] if semicolon else ""
    name = it.get("device", it.get("call"))
    if kind == "frontend" and gives not in TAKEN and name not in TAKEN_ALONE:
        yield f"TAKEN in scripts/requests/request_tables.py does not say what {gives} gives, which its key c names"


def entries(text):
    """The entries by their kind; or it raises Malformed, by which nothing is written."""
    found, wrong = read_entries(text)
    names = {it.get("name") for _, it in found["frontend"]}
    for kind, of_kind in found.items():
        for number, it in of_kind:
            faults = [*lacking(kind, it), *wrong_fields(it), *wrong_words(kind, it), *wrong_replies(kind, it)]
            if "like" in it and it["like"] not in names:
                faults.append(f"it is like {it['like']}, and there is no such request")
            wrong += [f"{SOURCE}:{number}: {it.get('name', it.get('call', 'an entry without a name'))}: {fault}" for fault in faults]
    if wrong:
        raise Malformed(*wrong)
    return {kind: [it for _, it in of_kind] for kind, of_kind in found.items()}
