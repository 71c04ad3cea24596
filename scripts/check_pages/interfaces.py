#!/usr/bin/env python3
# SPDX-License-Identifier: Apache-2.0
"""Whether what users build on is as it was promised, by two words of scripts/check.py.

headers: each constant of the headers for C, and of the foreign calls in Rust, is that of the code; and the feature that a frontend's call needs is the
same in the header, in the package for Rust and in docs/protocol/asking.md. Names and forms of requests are compared by the word requests. And each header
says how much of a thread's stack each of its exports takes at most, by the frames of its functions along their calls, which --write writes there. That
reads generated/MACHINE-linux/covretin.s and covretin_queue.s of each machine, and takes the greater. A frame is all that a function pushes and reserves
anywhere. Functions that are not of the library, as malloc and memcpy, are not counted. A function that calls itself is counted once, and marked, since its
calls decide how deep it goes. Code of a form that is not known is an error.

fixed: each line of protocol/fixed.tsv holds: names with their signatures, statuses, examples and wrong bodies.

  scripts/check_pages/interfaces.py    prints each public item of each crate as a line of that table

A line of the table has three fields. Of a `name` these are its crate and its signature; a crate also offers what it takes over from another by `pub use`.
Of a `row` and a `status` they are what is fixed, and where a test shows it: a file, and a text that stands in it. Of a `body`, which is a wrong one, they
are what is wrong, and the edit that the prover refuses, or the test that fails.
"""
import functools
import glob
import os
import re
import sys

from pages import TOP, read

# -- Constants --

MESSAGE = "crates/vhost_message/src"

# The headers' names of refusals that no error of the protocol is: a socket's, and a device's.
OF_SOCKETS = {"TIMED_OUT", "FDS_LOST", "INVALID_PATH", "MEMORY_LOST", "STOPPED"}
# Constants whose values say nothing of the code's: a device's features are virtio's; how many queues it has, and gets at once, is its own.
OWN = {"COVRETIN_VERSION", "COVRETIN_VERSION_NUMBER", "COVRETIN_DEVICE_MAX_QUEUES", "COVRETIN_DEVICE_VERSION_1", "COVRETIN_DEVICE_INDIRECT_DESC"}
OWN |= {"COVRETIN_DEVICE_EVENT_IDX", "COVRETIN_DEVICE_RING_PACKED", "COVRETIN_DEVICE_BURST"}


def value_of(expression, names):
    """The number of an expression of C or Rust: literals, names, and the operators that both have."""
    expression = re.sub(r"\(?\b(?:u?int\d+_t|u\d+|usize)\)|\bas \w+|\w+::(?=[A-Z])", "", expression.replace("\\\n", " "))
    return eval("(" + re.sub(r"(?<=\d)[uUlL]+\b", "", expression) + ")", {"__builtins__": {}}, names)


def constants(path, names=None):
    """The constants of a file in Rust, in their order, each by those before it."""
    found = dict(names or {})
    for name, expression in re.findall(r"const (\w+): \w+ =\s*([^;]+);", read(path)):
        found[name] = value_of(expression, found)
    return found


def codes(path):
    """The numbers of an enum of requests, as they are read."""
    return {name: int(number) for number, name in re.findall(r"^ +(\d+) => Ok\(\w+::(\w+)\),", read(path), re.MULTILINE)}


def sizes(path):
    """The sizes of a file's records on the wire."""
    return {name: int(size) for name, size in re.findall(r"impl ByteValued for (\w+) \{\s+const SIZE: usize = (\d+);", read(path))}


def plain(name):
    """A name without what C and Rust write differently: MEMFD_CREATE_ERROR and MemFdCreateError are the same."""
    return name.replace("_", "").upper()


def wanted():
    """What the headers have to say, by the code."""
    limits = constants(f"{MESSAGE}/limits.rt")
    bits = constants(f"{MESSAGE}/protocol_bit.rt")
    features = constants("crates/vhost_protocol/src/features.rt", bits)
    virtio = constants(f"{MESSAGE}/virtio_bit.rt")
    config = constants("crates/vhost_c_backend/src/replies.rt", limits)["MAX_CONFIG"]
    replies = sizes("crates/vhost_gpu_message/src/records/replies.rt")
    found = {
        "COVRETIN_MAX_FDS": limits["MAX_ATTACHED_FD_ENTRIES"],
        "COVRETIN_MAX_MESSAGE": limits["MAX_MSG_TEXT"],
        "COVRETIN_MAX_CONFIG": config,
        "COVRETIN_DISPLAY_CURSOR_SIZE": constants("crates/vhost_gpu_backend_req/src/halves.rt")["CURSOR_SIZE"],
        "COVRETIN_DISPLAY_INFO_SIZE": replies["VirtioGpuRespDisplayInfo"],
        "COVRETIN_DISPLAY_EDID_SIZE": replies["VirtioGpuRespGetEdid"],
        "COVRETIN_NEED_REPLY": 1 << constants(f"{MESSAGE}/header_bit.rt")["NEED_REPLY"],
        "COVRETIN_ASKED_PROTOCOL_FEATURES": features["ASKED_PROTOCOL_FEATURES"],
        # (the library for C makes no request of HOST_NOTIFIER)
        "COVRETIN_SERVED_PROTOCOL_FEATURES": features["SERVED_PROTOCOL_FEATURES"] & ~(1 << bits["HOST_NOTIFIER"]),
        "COVRETIN_OK": 0,
        "COVRETIN_QUEUE_OK": 0,
        "COVRETIN_DEVICE_MAX_REGIONS": constants("crates/vhost_queue/src/memory.rt")["MAX_REGIONS"],
        # (a chain has as many segments at most)
        "COVRETIN_DEVICE_MAX_QUEUE_SIZE": constants("crates/vhost_queue/src/queue.rt")["MIN_INDIRECT_LIMIT"],
    }
    found.update({f"COVRETIN_PROTOCOL_{name}": 1 << bit for name, bit in bits.items()})
    found.update({f"COVRETIN_FEATURE_{name}": 1 << bit for name, bit in virtio.items()})
    found.update({f"COVRETIN_CALL_{name}": number for name, number in codes(f"{MESSAGE}/frontend_req.rt").items()})
    found.update({"COVRETIN_CALL_POSTCOPY_ACK": 256, "COVRETIN_CALL_OTHER": 257})  # beyond each request's
    for name, number in codes(f"{MESSAGE}/backend_req.rt").items():
        found[f"COVRETIN_CHANNEL_CALL_{re.sub('_MSG$', '', name)}"] = number
    # as in the crate, what the code calls a feature of this channel is the number of its bit
    for name, number in re.findall(r"const (\w+): VhostUserGpu\w+ = \w+ \{ bits: 0x(\d+) \}", read("crates/vhost_gpu_message/src/flags/features.rt")):
        found[f"COVRETIN_DISPLAY_FEATURE_{name}"] = 1 << int(number, 16)
    for name, number in re.findall(r"number \(?(?:error|refusal)\.(\w+).* = (\d+)", read("crates/vhost_c_common/specs/Number.antt")):
        found[f"COVRETIN_{name}"] = int(number)
    for name, number in re.findall(r"number (\w+) = (\d+)", read("crates/vhost_c_queue/specs/Number.antt")):
        found[f"COVRETIN_QUEUE_{name}"] = int(number)
    for number, name in re.findall(r"(\d+) => Some\(Profile::(\w+)\)", read("crates/vhost_c_common/src/profile.rt")):
        found[f"COVRETIN_PROFILE_{name}"] = int(number)
    return found, {"MAX_FDS": "COVRETIN_MAX_FDS", "MAX_MESSAGE": "COVRETIN_MAX_MESSAGE", "MAX_CONFIG": "COVRETIN_MAX_CONFIG"}


def said():
    """What the headers say: each constant, with its header."""
    names = {}
    for header in sorted(os.listdir(f"{TOP}/include")):
        text = re.sub(r"/\*.*?\*/", "", read(f"include/{header}"), flags=re.DOTALL)
        defined = re.findall(r"^#define (COVRETIN_\w+)[ \t]+((?:.*\\\n)*.+)", text, re.MULTILINE)
        counted = re.findall(r"^ +(COVRETIN_\w+) = (\d+)", text, re.MULTILINE)
        for name, expression in defined + counted:
            if name not in OWN:
                names[name] = value_of(expression, names)
                yield header, name, names[name]


def needed(bits):
    """The feature that each call of a frontend needs, by the table of docs/protocol/asking.md; where its pages ask for bit 30, PROTOCOL_FEATURES."""
    found = {}
    for calls, checks in re.findall(r"^\| ([^|]+) \| ([^|]*) \|", read("docs/protocol/asking.md").partition("## The calls")[2], re.MULTILINE):
        features = {it for it in re.split("[;,] *", checks.strip()) if it in bits}
        features |= {"PROTOCOL_FEATURES"} if re.match("bit 30", checks) else set()
        found.update({re.sub(r"\(.*", "", call): features for call in calls.split(", ")})
    return found


def needed_in_c():
    """The same by the comment above the asks of covretin.h."""
    comment = re.search(r"/\* -- Asks -.*?\*/", read("include/covretin.h"), re.DOTALL)[0].replace("\n *", "")
    listed = re.findall(r"(PROTOCOL_FEATURES) was not [^:]*: ([a-z_, ]+)\.", comment) + re.findall(r"([A-Z_]+): ([a-z_, ]+)\.", comment)
    return [(call, feature) for feature, calls in listed for call in re.split(", +", calls)]


def needed_in_rust(bits):
    """The same by the last word of each call's documentation in the package for Rust."""
    found = re.findall(r"((?:^ +/// .*\n)+)(?: +#\[.*\]\n)* +(?:pub )?fn (\w+)\(", read("rust/src/vhost_user/frontend.rs"), re.MULTILINE)
    for text, call in found:
        last = re.search(r"(?:^|\. |/// )([A-Z_]+)(?: offered| accepted)?\.(?: Leave out .*)?$", re.sub(r"\s+///", "", text.strip()))
        if last and last[1] in {*bits, "PROTOCOL_FEATURES"}:
            yield call, last[1]


def wrong_needs(bits):
    """Where a feature that a call needs is another one in the header, or in the package for Rust."""
    rule, wrong = needed(bits), []
    rule["get_config_bytes"] = rule["get_config"]
    for where, listed in (("include/covretin.h", needed_in_c()), ("rust/src/vhost_user/frontend.rs", [*needed_in_rust(bits)])):
        said = {call: {of for it, of in listed if it == call} for call, _ in listed}
        for call in sorted({*rule, *said}):
            if said.get(call, set()) != rule.get(call, set()) and not (call == "get_config_bytes" and where.startswith("rust")):
                wrong.append(f"{where}: {call} needs {said.get(call)}, and by docs/protocol/asking.md {rule.get(call)}")
    return wrong


def wrong_queue_errors():
    """Where the package for Rust has another number for an error of a queue than the header."""
    header = dict(re.findall(r"COVRETIN_QUEUE_(\w+) = (\d+)", read("include/covretin_queue.h")))
    for name, number in re.findall(r'^    (\w+) = (\d+), "', read("rust/src/queue/mod.rs"), re.MULTILINE):
        in_c = re.sub(r"(?<!^)(?=[A-Z])", "_", name).upper()
        if header.get(in_c) != number:
            yield f"rust/src/queue/mod.rs: {name} is {number}, and COVRETIN_QUEUE_{in_c} {header.get(in_c)}"


def wrong_constants():
    """What is not so of the constants, in the headers and in the foreign calls in Rust."""
    code, glue = wanted()
    by_plain = {plain(name): value for name, value in code.items()}
    wrong, met = [], set()
    for header, name, value in said():
        met.add(name)
        of_code = by_plain.get(plain(name))
        if name.removeprefix("COVRETIN_") not in OF_SOCKETS and of_code != value:
            wrong.append(f"include/{header}: {name} is {value}, and of the code {of_code}")
    wrong += [f"include: no header has {it}" for it in code if it.startswith("COVRETIN_PROTOCOL_") and it not in met]
    for file in sorted(os.listdir(f"{TOP}/rust/src/foreign")):
        path = f"rust/src/foreign/{file}"
        for name, value in re.findall(r"const (\w+): usize = (\d+);", read(path)):
            if name in glue and int(value) != code[glue[name]]:
                wrong.append(f"{path}: {name} is {value}, and of the code {code[glue[name]]}")
    return wrong


# -- The stack --

LABEL = re.compile(r'^("[^"]+"|[A-Za-z_][\w.$]*):')
CALL = re.compile(r'^\t(callq?|jmp|bl|b)\t("[^"]+"|[A-Za-z_][\w.$]*)(?:@PLT)?$')
# What reserves room: an amount, or pages of 4,096 bytes.
RESERVES = re.compile(r"^\t(?:subq\t\$(\d+), %rsp|sub\tsp, sp, #(\d+)(, lsl #12)?|st[rp]\w*\t.*\[sp, #-(\d+)\]!)$")
# Forms by which a frame would be greater than what is counted: a call that is not direct, room in a loop, and room of a size that is not known.
UNKNOWN = re.compile(
    r"^\t(?:callq?\t\*|blr\t|(?:cmpq|subq|movq)\t%\w+, %rsp$|cmpq\t%rsp, |cmp\t(?:sp,|.*, sp$)|sub\tsp, sp, [xw]|mov\tsp, )"
)

# On x86-64 the call of the export itself puts eight bytes on the stack, and a function that calls none may use 128 below.
BEYOND = 136

# What a header says begins and ends so. Its steps are those that programs choose stacks by.
BEGINS = "/* STACK, in bytes at most, with what the proved code calls but memory and copies. Written by scripts/check.py --write headers:"
STEPS = (512, 1024, 2048, 4096, 8192, 12288, 16384, 20480, 24576, 32768)
WIDTH = 132


class Code:
    """The functions of a file of assembly: the frame of each, and which it calls, with what a call puts on the stack."""

    def __init__(self, path):
        self.frames, self.calls, self.known, self.deep = {}, {}, {}, set()
        name = None
        with open(path, encoding="utf-8") as file:
            for line in file:
                begins = LABEL.match(line)
                if begins:
                    name = begins[1]
                    self.frames[name], self.calls[name] = 0, set()
                elif name and line.startswith("\t.size"):
                    name = None
                elif name:
                    self.take(name, line.rstrip("\n"), path)

    def take(self, name, line, path):
        """Counts an instruction of a function."""
        if UNKNOWN.match(line):
            sys.exit(f"{os.path.relpath(path, TOP)}: {name}: the stack is not known behind '{line.strip()}'")
        reserves, call = RESERVES.match(line), CALL.match(line)
        if line.startswith("\tpushq\t"):
            self.frames[name] += 8
        if reserves:
            amount = int(reserves[1] or reserves[2] or reserves[4])
            self.frames[name] += amount * 4096 if reserves[3] else amount
        if call:
            self.calls[name].add((call[2], 8 if call[1].startswith("call") else 0))

    def most(self, name, above=()):
        """The most that a function takes, with what it calls."""
        if name in above:
            self.deep.add(name)
            return 0
        if name not in self.known:
            below = [put + self.most(of, (*above, name)) for of, put in self.calls[name] if of in self.frames]
            self.known[name] = self.frames[name] + max(below, default=0)
            self.deep |= {name} if any(of in self.deep for of, _ in self.calls[name]) else set()
        return self.known[name]


def counted():
    """Of each export how much it takes, and whether that is for each call of itself."""
    found = {}
    for path in sorted(glob.glob(f"{TOP}/generated/*-linux/covretin*.s")):
        code = Code(path)
        for name in (it for it in code.frames if it.startswith("covretin_")):
            most, deep = code.most(name), name in code.deep
            before = found.get(name, (0, False))
            found[name] = max(most + BEYOND, before[0]), deep or before[1]
    return found


def stack_of(exports, found):
    """The comment of a header, by its exports."""
    lines, steps = [BEGINS], {}
    for name in exports:
        most, deep = found[name]
        step = next(it for it in STEPS if most <= it)
        steps.setdefault(step, []).append(f"{name.removeprefix('covretin_')}{' (for each level of a sort)' if deep else ''}")
    least = min(steps)
    for step in sorted(steps, reverse=True):
        line = f" *   {step:,}:"
        for name in ["all others"] if step == least and len(steps) > 1 else ["all"] if step == least else sorted(steps[step]):
            if len(line) + len(name) + 2 > WIDTH:
                lines.append(line)
                line = " *       "
            line += f" {name}{',' if name != 'all' and step != least else ''}"
        lines.append(line.rstrip(","))
    return "\n".join(lines) + " */\n"


def with_exports(found):
    """Each header that declares exports: its path, what it has, what it has to have, and which exports it declares."""
    for path in sorted(glob.glob(f"{TOP}/include/*.h")):
        with open(path, encoding="utf-8") as file:
            text = file.read()
        exports = [it for it in re.findall(r"^[a-z][\w ]*?\**(covretin_\w+)\(", text, re.M) if it in found]
        if exports:
            bare = re.sub(rf"{re.escape(BEGINS)}\n(?: \*.*\n)+\n", "", text)
            end = bare.rindex("#ifdef __cplusplus\n}")
            yield path, text, f"{bare[:end]}{stack_of(exports, found)}\n{bare[end:]}", exports


def write_stack():
    for path, _, wanted_text, _ in with_exports(counted()):
        with open(path, "w", encoding="utf-8") as file:
            file.write(wanted_text)


def wrong_stack():
    """Where a header says another stack of its exports, and exports that no header has."""
    found, met = counted(), set()
    for path, text, wanted_text, exports in with_exports(found):
        met.update(exports)
        if text != wanted_text:
            yield f"{os.path.relpath(path, TOP)}: the stack of its exports is another"
    yield from (f"include: no header has {it}" for it in sorted({*found} - met))


def headers(write):
    if write:
        write_stack()
    return [*wrong_constants(), *wrong_queue_errors(), *wrong_needs(constants(f"{MESSAGE}/protocol_bit.rt")), *wrong_stack()]


# -- What is fixed --

TABLE = "protocol/fixed.tsv"

CONTRACT = re.compile(r"^\s*(requires|ensures|decreases|ghost)\b")
ITEM = re.compile(r"^(\s*)(pub )?(unsafe )?(extern \"C\" )?(fn|struct|enum|trait|const|type) (\w+)")
OWNER = re.compile(r"^(?:impl(?:<.*?>)? (?:(?P<of>[\w:]+)(?:<.*>)? for )?(?P<type>[\w:]+)|pub trait (?P<trait>\w+))")
TAKES_OVER = re.compile(r"^pub use (vhost_\w+)::(?:\{([^}]*)\}|(\w+)|(\*));", re.M)


def signature(lines, start):
    """The signature that begins at a line, on one line, without its contract and its body."""
    text = ""
    for line in lines[start:]:
        if CONTRACT.match(line):
            break
        text += " " + line.strip()
        if line.rstrip().endswith(("{", ";", "{}")):
            break
    text = re.sub(r"\s+", " ", text).strip(" {;").removesuffix("{}").rstrip(" {;")
    return text.replace("( ", "(").replace(", )", ")").replace(" )", ")").removeprefix("pub ")


def items_of(text):
    """The public items of a source: of a type, and of a trait, each function behind its name."""
    lines, owner, is_trait, attributes = text.split("\n"), "", False, ""
    for number, line in enumerate(lines):
        if line.startswith("#[derive"):
            attributes = re.sub(r"\s+", " ", line.strip())
        found = OWNER.match(line)
        if found:
            owner, is_trait = found["of"] and f"{found['of']} for {found['type']}" or found["type"] or found["trait"], bool(found["trait"] or found["of"])
        elif line.startswith("}"):
            owner, is_trait = "", False
        item = ITEM.match(line)
        if not item or not (item[2] or is_trait and item[1]):
            continue
        if item[5] in ("struct", "enum", "trait"):
            name = f"{item[5]} {item[6]}"
            yield f"{name} {attributes}".strip()
            attributes = ""
            if item[5] == "struct":
                yield from (f"{item[6]}.{field}" for field in fields(lines, number))
            if item[5] == "enum":
                yield from (f"{item[6]}::{variant}" for variant in variants(lines, number))
        else:
            yield f"{owner}::{signature(lines, number)}" if item[1] and owner else signature(lines, number)


def fields(lines, start):
    """The public fields of a struct."""
    for line in lines[start + 1:]:
        if line.startswith("}") or lines[start].rstrip().endswith(";"):
            return
        found = re.match(r"^    pub (\w+: .*?),?$", line)
        if found:
            yield found[1]


def variants(lines, start):
    """The variants of an enum."""
    for line in lines[start + 1:]:
        if line.startswith("}"):
            return
        found = re.match(r"^    ([A-Z]\w*(?:\(.*\))?(?: = \d+)?),$", line)
        if found:
            yield found[1]


def sources(crate):
    """The sources of a crate, each behind the name of its file."""
    for path in sorted(glob.glob(f"{TOP}/crates/{crate}/src/**/*.rt", recursive=True)):
        with open(path, encoding="utf-8") as file:
            yield os.path.basename(path).removesuffix(".rt"), file.read()


@functools.cache
def at_root(crate):
    """What a crate offers by its first file: the names that it takes out of its modules, and the modules that are public."""
    text = next(text for name, text in sources(crate) if name in ("lib", "main"))
    taken = re.findall(r"(?m)^pub use ([^;]*);", text)
    return frozenset(re.findall(r"\w+", " ".join(taken))), frozenset(["lib", "main", *re.findall(r"(?m)^pub mod (\w+)", text)])


def is_reached(crate, module, item):
    """Whether a program that uses a crate can name an item of one of its modules. An impl for a type of another crate needs no name."""
    names, modules = at_root(crate)
    return module in modules or " for " in item.split("(")[0] or subject(item) in names


@functools.cache
def own(crate):
    """What a crate has itself, and programs that use it can name."""
    return frozenset(item for module, text in sources(crate) for item in items_of(text) if is_reached(crate, module, item))


def subject(item):
    """The name that an item is about."""
    words = re.split(r"\W+", item.split(" for ")[-1])
    return words[1] if words[0] in ("struct", "enum", "trait", "fn", "const", "type", "unsafe") else words[0]


@functools.cache
def offered(crate):
    """What a crate offers: its own, and what it takes over from others."""
    items = set(own(crate))
    for _, text in sources(crate):
        for other, several, one, everything in TAKES_OVER.findall(text):
            names = {name.split(" as ")[0].strip() for name in (several or one).split(",")}
            items |= {item for item in offered(other) if everything or subject(item) in names}
    return frozenset(items)


def missing(kind, first, second):
    """What a line of the table says that is not so."""
    if kind == "name":
        return "" if second in offered(first) else f"{first} has no longer: {second}"
    path, _, text = second.partition(" ")
    if not os.path.isfile(f"{TOP}/{path}"):
        return f"{first}: {path} is gone"
    return "" if text in read(path) else f"{first}: {path} no longer has: {text}"


def fixed():
    rows = [line.split("\t") for line in read(TABLE).splitlines() if line.strip() and not line.startswith("#")]
    return [it for it in (missing(*row) for row in rows) if it]


def main():
    for crate in sorted(os.listdir(f"{TOP}/crates")):
        for item in sorted(offered(crate)):
            print(f"name\t{crate}\t{item}")


if __name__ == "__main__":
    main()
