# SPDX-License-Identifier: Apache-2.0
"""Whether docs/exports.tsv, the table of what is exported to C and proved, is what the contracts say: the word exports of scripts/check.py, by
--write of which it is written.

A row is an export: its name, which session it is of, whether it may be called with any arguments at any time, the errors that it answers beside
OK, what a refusal leaves, and its contract. The errors and what is left are those of the relation that the contract names, which RELATIONS gives
in words, and QUEUES for a queue; those of a call's own tests are read of the definitions. Each relation is one that the file of the export uses.
Each error is one of the headers for C, and one that the definitions name which the contract reaches.
It is wrong, too, where a contract names no relation, or does not reach an error, and where there is a premise.
"""
import glob
import os
import re
import sys

from pages import TOP, read
from theorems import closure, module_at, target

TABLE = "docs/exports.tsv"
CRATES = ("vhost_c", "vhost_c_queue_calls")
TITLE = ("export", "of", "may be called", "errors", "after an error", "contract")

EXPORT = re.compile(r'#\[unsafe\(no_mangle\)\]\npub extern "C" fn (\w+)\((.*?)\n\{\n', re.S)
CLAUSE = re.compile(r"^    (requires|ensures)(?: (\w+))? \{ (.*) \}$", re.M)

# Whose a name is, by its beginning; the first that fits.
SESSIONS = (
    ("covretin_inflight_", "no session"),
    ("covretin_log_", "no session"),
    ("covretin_queue_", "queue"),
    ("covretin_channel_server_", "channel's server"),
    ("covretin_channel_call_", "channel's server"),
    ("covretin_channel_reply_", "channel's server"),
    ("covretin_channel_", "channel"),
    ("covretin_display_", "display"),
    ("covretin_backend_", "backend"),
    ("covretin_call_", "backend"),
    ("covretin_reply_", "backend"),
    ("covretin_", "frontend"),
)

NOTHING = "nothing changed"
UNASKED = "nothing is asked or sent, and what is remembered and awaited is as before"
SHORT = "OUT_OF_MEMORY SOCKET_RETRY SOCKET_BROKEN"

# Each relation of a contract: the errors that it has beside OK, and what an error leaves; of one session, where its name stands before it.
RELATIONS = {
    "Opens": ("SESSION_OPEN OUT_OF_MEMORY", NOTHING),
    "OpensBackend": ("SESSION_OPEN OUT_OF_MEMORY", NOTHING),
    "OpensChannel": ("SESSION_OPEN OUT_OF_MEMORY", NOTHING),
    "OpensServer": ("SESSION_OPEN OUT_OF_MEMORY", NOTHING),
    "OpensDisplay": ("SESSION_OPEN OUT_OF_MEMORY", NOTHING),
    "ChoosesBy": ("NO_SESSION INVALID_PARAM", NOTHING),
    "Choosing": ("NO_SESSION INVALID_PARAM NOT_REPLIED", NOTHING),
    "Agreeing": ("NO_SESSION", NOTHING),
    "Acknowledging": ("NO_SESSION", NOTHING),
    "Sending": ("NO_SESSION NO_ROOM", NOTHING),
    "Receiving": ("NO_SESSION TOO_MANY_BYTES INVALID_PARAM OUT_OF_MEMORY", "nothing was taken in"),
    "Ending": ("NO_SESSION DISCONNECTED PARTIAL_MESSAGE INVALID_MESSAGE", "the session is as before"),
    "AsksBy": (f"NO_SESSION NOT_TAKEN {SHORT}", UNASKED),
    "frontend Takes": (
        f"NO_SESSION NOTHING_ASKED NOT_YET BACKEND_INTERNAL_ERROR INCORRECT_FDS INVALID_MESSAGE {SHORT}",
        "after NO_SESSION to NOT_YET nothing changed; after others nothing is asked",
    ),
    "channel Takes": (
        f"NO_SESSION NOTHING_ASKED NOT_YET FRONTEND_INTERNAL_ERROR INVALID_MESSAGE {SHORT}",
        "after NO_SESSION to NOT_YET nothing changed; after others nothing is asked",
    ),
    "display Takes": (
        f"NO_SESSION NOTHING_ASKED NOT_YET OTHER_ANSWER INVALID_MESSAGE {SHORT}",
        "after NO_SESSION to OTHER_ANSWER nothing changed; after others nothing is asked",
    ),
    "TakesNumber": (
        f"NO_SESSION NOTHING_ASKED NOT_YET OTHER_ANSWER INVALID_MESSAGE {SHORT}",
        "after NO_SESSION to OTHER_ANSWER nothing changed; after others nothing is asked; the place is as before",
    ),
    "TakesTo": (
        f"NO_SESSION NOTHING_ASKED NOT_YET OTHER_ANSWER NO_ROOM INVALID_MESSAGE {SHORT}",
        "after NO_SESSION to NO_ROOM nothing changed; after others nothing is asked; the place is as before",
    ),
    "Reading": ("NO_SESSION OTHER_ANSWER NO_ROOM", NOTHING),
    "backend Beginning": (
        "NO_SESSION NOT_REPLIED NOT_YET INVALID_MESSAGE INVALID_OPERATION INACTIVE_FEATURE INACTIVE_OPERATION INVALID_PARAM INCORRECT_FDS "
        f"FRONTEND_INTERNAL_ERROR {SHORT}",
        "after NO_SESSION to NOT_YET nothing changed; after others nothing of the request is left, and the device is asked nothing",
    ),
    "channel's server Beginning": (
        f"NO_SESSION NOT_REPLIED NOT_YET INVALID_MESSAGE {SHORT}",
        "after NO_SESSION to NOT_YET nothing changed; after others nothing of the request is left, and nobody is asked",
    ),
    "Telling": ("NO_SESSION OTHER_CALL", NOTHING),
    "Putting": ("NO_SESSION OTHER_CALL NO_ROOM", NOTHING),
    "backend Answering": (
        "NO_SESSION NOTHING_ASKED OTHER_CALL INVALID_PARAM OUT_OF_MEMORY BACKEND_INTERNAL_ERROR SOCKET_RETRY SOCKET_BROKEN",
        "after NO_SESSION to OUT_OF_MEMORY nothing changed; after others no call is to be replied to",
    ),
    "AnsweringShmem": (
        "NO_SESSION NOTHING_ASKED OTHER_CALL INVALID_PARAM BACKEND_INTERNAL_ERROR SOCKET_RETRY SOCKET_BROKEN",
        "after NO_SESSION to INVALID_PARAM nothing changed; after others no call is to be replied to",
    ),
    "channel's server Answering": (
        f"NO_SESSION NOTHING_ASKED {SHORT}",
        "after NO_SESSION and NOTHING_ASKED nothing changed; after others no call is to be replied to",
    ),
    "frontend Claiming": ("NO_SESSION OTHER_ANSWER", NOTHING),
    "backend Claiming": ("NO_SESSION OTHER_CALL", NOTHING),
    "channel's server Claiming": ("NO_SESSION OTHER_CALL", NOTHING),
    "LettingGo": ("NO_SESSION", NOTHING),
    "Abandoning": ("NO_SESSION", NOTHING),
    "RefusesRecovery": ("INVALID_INFLIGHT NO_ROOM OUT_OF_MEMORY", "the places are as before"),
}

# What comes before an ask may refuse it, too: an argument that is none.
BEFORE = {"AsksAllowed", "AsksNamed", "AsksWith", "AsksUnless"}

# Which tests of a call in the definitions refuse by which error.
ASK, TESTS = "crates/vhost_protocol/specs/Ask.antt", (
    ("INVALID_PARAM", {"param", "index", "small_index", "given"}),
    ("INACTIVE_FEATURE", {"protocol_in"}),
    ("INACTIVE_OPERATION", {"frontend_feature"}),
)

# .. and of the other sessions, beside those of each.
ASKED = {"channel": ["INACTIVE_OPERATION"]}
ASKED_ALONE = {"covretin_display_ask_update_scanout": ["OVERSIZED_MSG"]}

# What has a contract of equations, and answers no error; and what may, all the same.
PLAIN = ("", "")
EQUATIONS = {
    "covretin_log_pages": ("NOT_IN_GUEST", "the places are as before"),
}

# The same of the calls of a queue, whose contracts are written out.
BROKEN = "the queue needs a reset; after NO_QUEUE, NOT_STARTED, OTHER_LAYOUT, NOTHING_AVAILABLE and CHAIN_ENDED nothing changed"
WALKED = "the descriptors before the refused one were taken, and the queue needs a reset but after NO_QUEUE, NOT_STARTED and CHAIN_ENDED; the segments are none"
TAKEN = "after pop's or available's what these leave; else what walk leaves of the chain, which was taken; the segments are none"
QUEUES = {
    "open": ("QUEUE_OPEN OUT_OF_MEMORY", NOTHING),
    "set_regions": ("NO_QUEUE INVALID_REGION REGION_OVERLAP TOO_MANY_REGIONS OUT_OF_MEMORY", NOTHING),
    "add_region": ("NO_QUEUE INVALID_REGION REGION_OVERLAP TOO_MANY_REGIONS OUT_OF_MEMORY", NOTHING),
    "remove_region": ("NO_QUEUE NO_SUCH_REGION", NOTHING),
    "translate": ("NO_QUEUE NOT_IN_GUEST", NOTHING),
    "start_split": ("NO_QUEUE INVALID_SIZE NOT_IN_GUEST UNALIGNED OUT_OF_MEMORY", NOTHING),
    "start_packed": ("NO_QUEUE INVALID_SIZE NOT_IN_GUEST UNALIGNED INVALID_BASE OUT_OF_MEMORY", NOTHING),
    "move_split": ("NO_QUEUE NOT_STARTED OTHER_LAYOUT NOT_IN_GUEST UNALIGNED", NOTHING),
    "move_packed": ("NO_QUEUE NOT_STARTED OTHER_LAYOUT NOT_IN_GUEST UNALIGNED", NOTHING),
    "stop": ("NO_QUEUE", NOTHING),
    "base": ("NO_QUEUE NOT_STARTED", NOTHING),
    "needs_reset": ("NO_QUEUE", NOTHING),
    "available_place": ("NO_QUEUE NOT_STARTED", NOTHING),
    "head_place": ("NO_QUEUE NOT_STARTED OTHER_LAYOUT NOTHING_AVAILABLE", NOTHING),
    "notification_place": ("NO_QUEUE NOT_STARTED", NOTHING),
    "descriptor_place": ("NO_QUEUE", NOTHING),
    "set_notification": ("NO_QUEUE NOT_STARTED", NOTHING),
    "available": ("NO_QUEUE NOT_STARTED TOO_MANY_AVAILABLE NEEDS_RESET", BROKEN),
    "pop": ("NO_QUEUE NOT_STARTED OTHER_LAYOUT NOTHING_AVAILABLE NOT_IN_TABLE HEAD_IN_USE NEEDS_RESET", BROKEN),
    "resubmit": ("NO_QUEUE NOT_STARTED OTHER_LAYOUT NOT_IN_TABLE HEAD_IN_USE NEEDS_RESET", BROKEN),
    "resubmit_packed": ("NO_QUEUE NOT_STARTED OTHER_LAYOUT NEEDS_RESET", NOTHING),
    "step": ("NO_QUEUE NOT_STARTED CHAIN_ENDED NEEDS_RESET and what the guest wrote: NOT_IN_GUEST to HEAD_IN_USE", BROKEN),
    "table": ("NO_QUEUE", NOTHING),
    "walk": ("NO_QUEUE NOT_STARTED CHAIN_ENDED NEEDS_RESET and what the guest wrote: NOT_IN_GUEST to HEAD_IN_USE", WALKED),
    "give_back": ("NO_QUEUE NOT_STARTED OTHER_LAYOUT NOT_HANDED_OUT TOO_MANY_AVAILABLE", NOTHING),
    "adopt": ("NO_QUEUE NOT_STARTED OTHER_LAYOUT NOT_IN_TABLE HEAD_IN_USE", NOTHING),
    "heads_place": ("NO_QUEUE NOT_STARTED OTHER_LAYOUT NOTHING_AVAILABLE", NOTHING),
    "take": (
        "NO_QUEUE NOT_STARTED NOTHING_AVAILABLE NOT_IN_TABLE HEAD_IN_USE CHAIN_ENDED NEEDS_RESET and what the guest wrote: NOT_IN_GUEST to HEAD_IN_USE",
        TAKEN,
    ),
    "add_used": ("NO_QUEUE NOT_STARTED NOT_HANDED_OUT", NOTHING),
    "add_used_many": ("NO_QUEUE NOT_STARTED NOT_HANDED_OUT NO_ROOM", "the chains before the refused one were given back, and are told; after NO_QUEUE, NOT_STARTED and NO_ROOM none"),
    "needs_notification": ("NO_QUEUE NOT_STARTED", NOTHING),
}


# Errors that a contract gives by their numbers.
NUMBERED = {
    "NO_SESSION": "101", "NO_QUEUE": "101", "SESSION_OPEN": "102", "QUEUE_OPEN": "102", "OUT_OF_MEMORY": "24", "INVALID_PARAM": "1",
    "DISCONNECTED": "10", "PARTIAL_MESSAGE": "9", "INVALID_MESSAGE": "5", "NOT_IN_GUEST": "9",
}
USE = re.compile(r"(?m)^ *ghost use Rattle\.(\w+)\.specs\.([\w.]+?)\.\{([^}]*)\};$")


class Wrong(Exception):
    """What a contract is that the table cannot say."""


def clauses_of(text):
    """The clauses of a contract, on one line each."""
    found = CLAUSE.findall(text)
    if any(kind == "requires" for kind, _, _ in found):
        raise Wrong("it has a premise")
    if not found:
        raise Wrong("it has no contract")
    return [(name, " ".join(clause.split())) for _, name, clause in found]


def tests():
    """Of each call of a frontend the errors of its own tests."""
    found = {}
    for name, none, body in re.findall(r"(?m)^ask f \(?([A-Z]\w*)\b[^=]*?( None)?\)? =((?:.*\n  .*)*.*)$", read(ASK)):
        words = set(re.findall(r"\w+", body))
        found[name + none] = {error for error, names in TESTS if words & names}
    return found


def call_of(clause, calls):
    """The call of the definitions that a contract names, by its form."""
    for name in set(re.findall(r"\w+", clause)):
        for form in (f"{name} None", name):
            if form in calls and (form == name or re.search(rf"\b{name} \w+ None\b", clause)):
                return form
    raise Wrong("it asks for no call of the definitions")


def asks_of(name, of, clause, calls):
    """The errors of an ask: that an argument is none, those of the tests of its call, and those of every ask."""
    words = set(re.findall(r"\w+", clause))
    own = set(ASKED.get(of, [])) | set(ASKED_ALONE.get(name, []))
    own |= {"INVALID_PARAM"} if words & BEFORE else set()
    if of == "frontend":
        own |= calls[call_of(clause, calls)]
    errors, left = RELATIONS["AsksBy"]
    return " ".join([*errors.split()[:2], *sorted(own), *errors.split()[2:]]), left


def told_of(name, of, clauses, imported, calls):
    """The errors of an export, and what one leaves."""
    short = name.removeprefix("covretin_queue_")
    if of == "queue" and short in QUEUES:
        return QUEUES[short]
    for _, clause in clauses:
        for word in re.findall(r"\w+", clause):
            if word in imported and (word == "AsksBy" or word in BEFORE):
                return asks_of(name, of, clause, calls)
            for key in (f"{of} {word}", word):
                if word in imported and key in RELATIONS:
                    return RELATIONS[key]
    if all(re.match(r"\w+\.new(?:\.\w+)? ≡ |result [≡≢] |\(result ≡ ", clause) for _, clause in clauses):
        return EQUATIONS.get(name, PLAIN)
    raise Wrong("it names no relation that is known")


def reached(clauses, text):
    """The words of a contract, and of the definitions of the crates that it reaches."""
    words = {word for _, clause in clauses for word in re.findall(r"\w+", clause)}
    named = []
    for crate, module, group in USE.findall(text):
        for word in group.split(","):
            there, _, here = word.strip().partition(" as ")
            named += [target(crate, module, there)] if (here or there) in words else []
    for path, name in closure(it for it in named if it):
        # (the numbers of all errors are not those of this one)
        if path.endswith(".antt") and os.path.basename(path) != "Number.antt":
            lines = (line for line in module_at(path).items[name] if not line.strip().startswith("--"))
            words |= {word for line in lines for word in re.findall(r"\w+", line)}
    return words


def unreached(errors, words):
    """The errors that a contract cannot answer."""
    for error in re.findall(r"[A-Z]+(?:_[A-Z]+)*", errors):
        if error.title().replace("_", "") not in words and NUMBERED.get(error) not in words:
            yield error


def rows():
    """A row for each export."""
    calls = tests()
    for path in sorted(it for crate in CRATES for it in glob.glob(f"{TOP}/crates/{crate}/src/*.rt")):
        where = os.path.relpath(path, TOP)
        text = read(where)
        imported = set(re.findall(r"\w+", " ".join(re.findall(r"(?m)^ghost use (.*);$", text))))
        for name, body in EXPORT.findall(text):
            of = next(it for begins, it in SESSIONS if name.startswith(begins))
            try:
                clauses = clauses_of(body)
                errors, left = told_of(name, of, clauses, imported, calls)
                strange = list(unreached(errors, reached(clauses, text)))
                if strange:
                    raise Wrong(f"its contract does not reach {' '.join(strange)}")
            except Wrong as why:
                sys.exit(f"{where}: {name}: {why}")
            yield name, of, "always", errors or "none", left or "-", "; ".join(f"{label}: {clause}" if label else clause for label, clause in clauses)


def unknown(table):
    """The errors of the table that no header has."""
    known = set(re.findall(r"\bCOVRETIN_(?:QUEUE_)?([A-Z]\w*) = \d+", read("include/covretin.h") + read("include/covretin_queue.h")))
    return sorted({it for row in table for it in re.findall(r"\b[A-Z]+(?:_[A-Z]+)+\b", row[3])} - known)


def exports(write):
    table = list(rows())
    strange = unknown(table)
    if strange:
        return [f"no header has {it}" for it in strange]
    text = "".join("\t".join(row) + "\n" for row in [TITLE, *table])
    if write:
        with open(f"{TOP}/{TABLE}", "w", encoding="utf-8") as file:
            file.write(text)
    return [] if read(TABLE) == text else [f"{TABLE}: the contracts say something else"]
