# SPDX-License-Identifier: Apache-2.0
"""The tables that scripts/requests/requests.py writes from protocol/requests.toml: each stands in a file between a line 'generated from ..: WHAT' and a
line 'end', both comments. A table is a function of the entries by their kind, and of the lines that stand there."""
import re

SOURCE = "protocol/requests.toml"
BEGINS = re.compile(rf"^( *)(?://|#|--|/\*) generated from {re.escape(SOURCE)}: (.*?)(?: \*/)?$")
ENDS = re.compile(r"^ *(?://|#|--|/\*) end(?: \*/)?$")

# What a letter of a call's words is, to the player of scripts in Python.
READERS = {"l": "u64", "p": "u64", "i": "u32", "c": "u32", "d": "u32", "t": "u32", "r": "u32", "s": "u16", "o": "flag", "h": "fd"}
# The first argument of these is a ring.
OF_A_RING = re.compile(r"[gs]et_vring_")
# How the player takes the arguments of a request, by the call that gives them; and calls whose arguments it takes in a way of their own.
TAKEN = {"": "nothing", "call_number": "number", "call_ring": "ring", "call_vring": "vring", "call_ring_fd": "ring_fd", "call_regions": "table",
         "call_log": "log", "call_fd": "only_file", "call_name": "name", "call_inflight": "area", "call_transfer": "transfer"}
TAKEN_ALONE = {"get_vring_base": "lambda session: ring(session)[:1]", "get_config": "get_config", "set_config": "set_config",
               "remove_mem_region": "removed", "other": "other"}


def camel(name):
    return "".join(it.capitalize() for it in name.split("_"))


def calls(kinds):
    """The calls of a frontend, by their names."""
    return {it["call"]: it for it in kinds["frontend"] + kinds["call"] if "call" in it}


def own_calls(kinds):
    """The same, without the words that make another one's call."""
    return {name: it for name, it in calls(kinds).items() if "wider" not in it}


def bare(kinds):
    """Those without an argument."""
    return [name for name, it in calls(kinds).items() if "words" not in it]


def served(kinds):
    """What a device is asked, by the names of its calls."""
    return {it.get("device", it.get("call")): it for it in kinds["frontend"] + kinds["call"] + kinds["asked"] if "c" in it}


def form(it):
    """The call for C that gives an entry's arguments, and the one that replies."""
    gives, semicolon, replies = it["c"].partition(";")
    if not semicolon:
        gives, replies = "", gives + ";" + replies
    found = re.search(r"reply_(\w+)(?:, or reply_(\w+))?", it["c"])
    return re.match(r"\w*", gives)[0], (found[2] or found[1])


def kept(lines, rows):
    """Rows, each behind the word that it is known by, in the order in which they stand; new ones come last."""
    text = "\n".join(lines)

    def place(word):
        found = re.search(rf"\b{re.escape(word)}\b", text)
        return found.start() if found else len(text)

    return [line for _, row in sorted(rows, key=lambda it: place(it[0])) for line in row]


# -- C --


def enum(kinds, kind, prefix, cut=""):
    """The numbers of an enum of a header, each with its form behind it."""
    rows = [(f"{prefix}{it['name'].removesuffix(cut)} = {it['code']}", it["c"]) for it in kinds[kind] if "c" in it]
    rows += [(f"{prefix}{it['name']} = {it['code']}", it["c"]) for it in kinds["call"] + kinds["asked"] if "c" in it and kind == "frontend"]
    width = max(len(row) for row, _ in rows) + 2
    return [f"{row + (',' if at + 1 < len(rows) else ''):{width}}/* {text} */" for at, (row, text) in enumerate(rows)]


def names_in_c(kind):
    return lambda kinds, _: [f'[{it["code"]}] = "{it["name"]}",' for it in kinds[kind]]


def plain_types(kinds, it, types):
    """The types of a call's arguments, where each is a number, a flag or a descriptor by itself, behind a ring or alone; else None. A number is as wide as
    in the widest word that makes the call."""
    words = it.get("words", "")
    is_of_ring = bool(OF_A_RING.match(it["call"]))
    if not re.fullmatch(r"l?[lpisohr]" if is_of_ring else r"[lpisohr]?", words):
        return None
    wider = [other["words"] for other in kinds["call"] if other.get("wider") == it["call"]]
    letters = [max((word[at] for word in [words, *wider]), key="ohrsil".find) if at or not is_of_ring else "ring" for at in range(len(words))]
    return [types[{"p": "l", "r": "i"}.get(letter, letter)] for letter in letters]


IN_C = {"ring": "size_t", "l": "uint64_t", "i": "uint32_t", "s": "uint16_t", "o": "bool", "h": "int32_t"}


def asks_plain(kinds, _):
    """The calls without an argument, of one, and of a ring with another."""
    for name, it in own_calls(kinds).items():
        types = plain_types(kinds, it, IN_C)
        if types is not None:
            yield f"{('BARE', 'ONE', 'RING')[len(types)]}({', '.join([name, *types[-1:]])})"


def asks(kinds, _):
    forms = {"number": "NUMBER", "ring": "NUMBER", "bases": "BASES", "config": "CONFIG", "fd": "FD", "inflight": "INFLIGHT", "shmem": "SHMEM"}
    rows = []
    for name, it in calls(kinds).items():
        missing = len(re.sub(r".*?\[(.*)\]|.*", r"\1", it.get("usage", "")).split())
        answer = forms.get(form(it)[1], "PLAIN") if "c" in it else "PLAIN"
        makes = "NULL" if name == "set_hdr_flags" else it.get("wider", name)
        rows.append(f'{{"{name}", "{it.get("words", "")}", {missing}, {makes}, {answer}}},')
    return rows


# What a call takes, by the letters of its words.
TAKES = {"": "NOTHING", "l": "NUMBER", "p": "PROTOCOL", "s": "SHORT", "*": "REGIONS", "lllh": "LOG", "h": "FD", "ls": "RING_NUMBER", "li": "RING_NUMBER",
         "lillll": "VRING", "lh": "RING_FD", "lo": "RING_FLAG", "iic": "CONFIG", "icb": "BYTES", "llss": "AREA", "llssh": "AREA_FD", "llllh": "REGION",
         "n": "NAME", "dth": "TRANSFER"}


def takes(it):
    """The form of what a call takes."""
    return "RING" if OF_A_RING.match(it["call"]) and it.get("words") == "l" else TAKES[it.get("words", "")]


def requests_in_c(kinds, _):
    """Each call of a frontend that is a request, with the forms of what it takes, of what the device is given, and of both replies."""
    rows = []
    for it in kinds["frontend"]:
        if "call" not in it:
            continue
        row = [it["name"], it["call"], it.get("feature", "NONE"), takes(it)]
        if "c" not in it:
            rows.append(f"OF_NO_DEVICE({', '.join(row)})")
            continue
        gives, replies = form(it)
        sees = gives.removeprefix("call_") or "nothing"
        reply = "ACK" if it["reply"] == "ack" else "OWN"
        fds = "1" if it.get("fds") in ("one", "one a region") else "0"
        rows.append(f"REQUEST({', '.join([*row, sees.upper(), replies.upper(), reply, fds])})")
    return rows


# -- Rust --


def codes(kind):
    return lambda kinds, _: [f"{it['name']} = {it['code']}," for it in kinds[kind]]


IN_RUST = {"ring": "usize", "l": "u64", "i": "u32", "s": "u16", "o": "bool", "h": "i32"}


def foreign(kinds, _):
    for name, it in own_calls(kinds).items():
        types = plain_types(kinds, it, IN_RUST)
        if types is not None:
            args = ", ".join(f"{'fd' if arg == 'handle' else arg}: {of}" for arg, of in zip(it.get("args", "").split(), types))
            yield f"{name} = covretin_ask_{name}({args});"


def requests_in_rust(kinds, _):
    """Each call of a frontend that is a request, with the form of what it takes, and whether it is acknowledged and sends a descriptor."""
    for it in kinds["frontend"]:
        if "call" in it:
            row = [it["name"], it["call"], it.get("feature", "NONE"), takes(it), "ACK" if it["reply"] == "ack" and "c" in it else "OWN", str("fds" in it).lower()]
            yield f"request!({', '.join(row)}),"


OF_A_DEVICE = {"ring": "u32", "l": "u64", "s": "u16", "o": "bool"}


def noted(kinds, _):
    """What a device is asked that has no reply of its own and takes numbers, a flag, or a ring with a descriptor: it notes that."""
    for name, it in served(kinds).items():
        if it not in kinds["frontend"] or it["reply"] != "ack" or form(it)[0] not in ("", "call_number", "call_ring", "call_ring_fd"):
            continue
        if form(it)[0] == "call_ring_fd":
            yield from (f"fn {name}(&mut self, index: u8, fd: Option<File>) -> Result<()> {{", f'    self.keep("{name}", index, fd)', "}")
            continue
        # (a device is given a ring's number in 32 bits, whatever it is)
        types = plain_types(kinds, it, {**OF_A_DEVICE, "i": "u32", "h": "i32", **({"s": "u32"} if OF_A_RING.match(it["call"]) else {})})
        args = it.get("args", "").split()
        text = "".join(f" {{{arg}:#x}}" if of == "u64" else f" {{{arg}}}" for arg, of in zip(args, types))
        said = f'format!("{name}{text}")' if args else f'"{name}"'
        yield from (f"fn {', '.join([f'{name}(&mut self', *(f'{arg}: {of}' for arg, of in zip(args, types))])}) -> Result<()> {{", f"    self.note({said})", "}")


def serving(kinds, _):
    """What a device replies to without an argument: by a number, or by nothing."""
    rows = []
    for name, it in served(kinds).items():
        gives, replies = form(it)
        is_known = replies == "number" and name != "get_protocol_features" or replies == "done" and it.get("reply") == "ack"
        if gives == "" and is_known:
            rows.append(f"FrontendReq::{it['name']} => it.{replies}(device.{name}()),")
    return rows


FORMS = {"number": "Number", "ring": "Ring", "config": "Config", "fd": "Fd", "inflight": "Inflight", "shmem": "Shmem"}


def form_in_tap(it):
    if "c" not in it:
        return "Form::Done"
    gives, replies = form(it)
    if it["reply"] != "ack" and replies == "done":
        return "Form::Told" if it["reply"] == "U64" else "Form::Same"
    if replies == "bases":
        return "bases_or_done(session)?"
    if gives == "call_transfer":
        return "Form::Transfer"
    return f"Form::{FORMS.get(replies, 'Done')}"


def forms_in_tap(kinds, _):
    return [f"{it['name']} => {form_in_tap(it)}," for it in kinds["frontend"]]


def wants(kinds, _):
    """What each request that is served has to be; the others have no table."""
    rows = [f'{it["name"]} => "{it.get("wants", "no descriptor")}",' for it in kinds["frontend"] if "c" in it]
    unserved = [it["name"] for it in kinds["frontend"] if "c" not in it]
    return rows + [f"{name} => return None," for name in unserved]


def wants_in_c(kinds, _):
    return [f'[{it["code"]}] = "{it.get("wants", "no descriptor")}",' for it in kinds["frontend"] if "c" in it]


def features(kinds, _):
    """The protocol features of which one may be lacking."""
    return [f"NAMED({name})," for name in sorted({it["feature"] for it in kinds["frontend"] + kinds["asked"] if "feature" in it})]


def replied(kinds, _):
    return [f"FrontendReq::{it['name']}," for it in kinds["frontend"] if it["reply"] != "ack"]


def field(text):
    """A field's name, its bytes and its form."""
    name, width, *shape = text.split(":")
    return name, width, shape[0] if shape else "Padding" if not name else "Address" if width == "8" else "Number"


def parts(shown):
    """The fields of a body of which these are shown; the name and the fields of the records behind them, if there are some; and whether bytes
    stand there."""
    found = re.fullmatch(r"(.*?) ?(?:(\w+)\((.*)\)|(bytes))", shown)
    if not found:
        return [field(it) for it in shown.split()], None, [], False
    return [field(it) for it in found[1].split()], found[2], [field(it) for it in (found[3] or "").split()], bool(found[4])


def layout(shown):
    """The layout of a body of which these fields are shown."""

    def in_rust(fields):
        return [f'("{name}", {width}, Form::{form})' for name, width, form in fields]

    fields, records, inner, has_bytes = parts(shown)
    tail = f'Records("{records}", &[{", ".join(in_rust(inner))}])' if records else "Bytes" if has_bytes else "End"
    return in_rust(fields), tail


def layouts(kind, key):
    """Each request's arm of a match; one without a body is shown as bytes, since some may have come."""

    def rows(kinds, _):
        for it in kinds[kind]:
            fields, tail = layout(it.get(key, "bytes"))
            yield f"{it['name']} => (&[{', '.join(fields)}], Tail::{tail}),"

    return rows


# -- Reasons --

VALUE = re.compile(r"\{(\w+):(\w)(?::(\w+))?\}")
# Of each form of a value: how a text of C has it, and as what it is given; the type in Rust, and how a text of it has it.
VALUES = {"s": ("%s", "({})", "impl Display", ""), "u": ('%" PRIu32 "', "(uint32_t)({})", "u32", ""),
          "l": ('%" PRIu64 "', "(uint64_t)({})", "u64", ""), "x": ('0x%" PRIx64 "', "(uint64_t)({})", "u64", ":#x"),
          "n": ('%" PRIu64 " {}%s', '(uint64_t)({}), ({}) == 1 ? "" : "s"', "u64", "")}


def reasons_in_c(kinds, _):
    """A macro each: the form of a text and the values that belong there, as printf takes them."""
    for it in kinds["reason"]:
        values = VALUE.findall(it["text"])
        text = VALUE.sub(lambda found: VALUES[found[2]][0].format(found[3]), it["text"])
        text = f'"{text}"'.removesuffix(' ""')
        if not values:
            yield f"#define REASON_{it['name'].upper()} {text}"
            continue
        yield f"#define REASON_{it['name'].upper()}({', '.join(name for name, _, _ in values)}) \\"
        yield f"    {text}, \\"
        yield f"    {', '.join(VALUES[form][1].format(name, name) for name, form, _ in values)}"


def reasons_in_rust(kinds, _):
    """A function each, or a constant."""
    for it in kinds["reason"]:
        values = VALUE.findall(it["text"])
        text = VALUE.sub(lambda found: f"{{{found[1]}{VALUES[found[2]][3]}}}", it["text"])
        if not values:
            yield f'pub(crate) const {it["name"].upper()}: &str = "{text}";'
            continue
        yield f"pub(crate) fn {it['name']}({', '.join(f'{name}: {VALUES[form][2]}' for name, form, _ in values)}) -> String {{"
        for name, form, noun in values:
            if form == "n":
                yield f'    let {name} = count_of({name}, "{noun}");'
        is_short = len(text) <= 114
        yield from [f'    format!("{text}")'] if is_short else ["    format!(", f'        "{text}"', "    )"]
        yield "}"


def rules_in_c(kinds, _):
    return [f'[{it["code"]}] = "{it["text"]}",' for it in kinds["rule"]]


def rules_in_rust(kinds, _):
    for it in kinds["rule"]:
        yield f"/// {it['text'][0].upper()}{it['text'][1:]}."
        yield f'{it["name"]} = {it["code"]}, "{it["text"]}";'


# -- The player of scripts, and help --


def reader(it, at, letter):
    if at == 0 and OF_A_RING.match(it["call"]):
        return "index"
    return "fd_or_none" if letter == "h" and it.get("fds") == "one or none" else READERS[letter]


def plain_calls(kinds, _):
    """Calls whose arguments are words of one kind each; the others are not bare, and stand apart."""
    forms = {"ring": "number", "bases": "", "done": ""}
    apart = {"set_hdr_flags", "set_mem_table", "add_mem_region", "remove_mem_region", "set_log_base", "set_vring_addr", "set_config",
             "get_shared_object", "get_inflight_fd", "set_inflight_fd"}
    for name, it in own_calls(kinds).items():
        if name in apart:
            continue
        words = [reader(it, at, letter) for at, letter in enumerate(it.get("words", ""))]
        gives, replies = form(it) if "c" in it else ("", "done")
        answer = "state_fd" if gives == "call_transfer" else forms.get(replies, replies)
        yield f'"{name}": (({", ".join(words)}{"," if len(words) == 1 else ""}), "{answer}"),'


def device_calls(kinds, _):
    for name, it in served(kinds).items():
        gives, replies = form(it)
        taken = TAKEN_ALONE.get(name) or TAKEN[gives if it["code"] < 256 else ""]
        yield f'{it["code"]}: ("{name}", {taken}, "{"state_fd" if gives == "call_transfer" else replies}"),'


def usages(kinds, _):
    """Each call with its words, two in a line where there is room."""
    rows = []
    for name, it in calls(kinds).items():
        text = f"{name} {it.get('usage', '')}".rstrip()
        if rows and len(rows[-1]) < 40 and len(text) <= 64:
            rows[-1] = f"{rows[-1]:40}{text}"
        else:
            rows.append("  " + text)
    return [f"calls='{rows[0]}", *rows[1:-1], f"{rows[-1]}'"]


# -- Lua --


def layout_in_lua(shown, is_empty=False):
    """A layout as the dissector has it. A body that is not shown and that no request has is an empty one."""

    def in_lua(fields):
        return [f'{{ "{name}", {width}, "{form}" }}' for name, width, form in fields]

    fields, records, inner, has_bytes = parts(shown)
    row = in_lua(fields)
    row += [f'tail = "{records}"', f"of = {{ {', '.join(in_lua(inner))} }}"] if records else ['tail = "bytes"'] if has_bytes else []
    row += ["empty = true"] if is_empty else []
    return f"{{ {', '.join(row)} }}"


def dissected(kind):
    """Each request's row in the dissector."""

    def rows(kinds, _):
        for it in kinds[kind]:
            yield f'[{it["code"]}] = {{'
            yield f'    name = "{it["name"]}", replies = {"true" if it.get("reply", "ack") != "ack" else "false"},'
            yield f"    body = {layout_in_lua(it.get('shown', 'bytes'), 'body' not in it)},"
            if kind == "frontend":
                yield f"    reply = {layout_in_lua(it['reply_shown'])},"
            yield "},"

    return rows


# -- Rattle --


def helped(kinds, _):
    """What a line that asks for help is told."""
    return ["static HELP: &str =", f'    "the calls are {", ".join(calls(kinds))}";']


def variants(kind, has_codes=False):
    return lambda kinds, _: [f"{it['name']}{' = ' + str(it['code']) if has_codes else ''}," for it in kinds[kind]]


def numbers(kind, enum_of):
    return lambda kinds, _: [f"{enum_of}::{it['name']} => {it['code']}," for it in kinds[kind]]


def read_numbers(kind, enum_of):
    return lambda kinds, _: [f"{it['code']} => Ok({enum_of}::{it['name']})," for it in kinds[kind]]


def numbers_in_logic(kind, function):
    return lambda kinds, _: [f"{function} {it['name']} = {it['code']}" for it in kinds[kind]]


def words(kinds, lines):
    rows = [(name, [f'    ("{name}", "{it.get("words", "")}"),']) for name, it in calls(kinds).items()]
    return [f"static CALLS: [(&str, &str); {len(rows)}] = [", *kept(lines, rows), "];"]


def readers(kinds, lines):
    """What reads the arguments of each call."""
    rows = []
    for name, it in calls(kinds).items():
        if "words" not in it:
            value = f"Ok(bare(FrontendCall::{camel(name)}, args))"
        elif it["words"] == "*":
            value = f"{name}(alloc, text)"
        else:
            value = f"{name}(alloc, args)" if name.endswith("_config") else f"Ok({name}(args))"
        rows.append((f'"{name}"'[1:-1], [f'"{name}" => {value},']))
    return kept(lines, rows)


def same(it, argument):
    """Whether an argument is the same as the other call's."""
    a, b = argument, f"other_{argument}"
    if argument == "flags" or it.get("words") == "p":
        return f"{a}.bits() == {b}.bits()"
    if argument == "buffer":
        return f"{a}.as_slice() == {b}.as_slice()"
    if argument == "code":
        return f"is_same_request(*{a}, *{b})"
    by = {"regions": "are_same_infos", "region": "is_same_log_region", "ring": "is_same_ring", "name": "is_same_name",
          "area": "is_same_inflight", "info": "is_same_info"}.get(argument)
    return f"{by}({a}, {b})" if by else f"{a} == {b}"


def compared(kinds, lines):
    rows = []
    for name, it in own_calls(kinds).items():
        variant, args = f"FrontendCall::{camel(name)}", it.get("args", "").split()
        if not args:
            row = [f"{variant} => matches!(b, {variant}),"]
        else:
            others = ", ".join(f"other_{arg}" for arg in args)
            row = [f"{variant}({', '.join(args)}) =>",
                   f"    matches!(b, {variant}({others}) if {' && '.join(same(it, arg) for arg in args)}),"]
        rows.append((camel(name), row))
    return kept(lines, rows)


def copied(kinds, lines):
    rows = []
    for name, it in own_calls(kinds).items():
        variant, args = f"FrontendCall::{camel(name)}", it.get("args", "").split()
        values = [f"copied(alloc, {arg})?" if arg in ("regions", "buffer") else f"*{arg}" for arg in args]
        if name == "set_hdr_flags":
            values = ["VhostUserHeaderFlag::from_bits_retain(flags.bits())"]
        head = f"{variant}({', '.join(args)})" if args else variant
        row = [f"{head} => {variant}({', '.join(values)})," if args else f"{head} => {variant},"]
        if len(row[0]) > 92:
            inside = [f"    {', '.join(values)},"] if all(len(it) <= 10 for it in values) else [f"    {it}," for it in values]
            row = [f"{head} => {variant}(", *inside, "),"]
        rows.append((camel(name), row))
    return kept(lines, rows)


MESSAGE, DISPLAY = "crates/vhost_message", "crates/vhost_gpu_message"
TABLES = {
    "include/covretin_backend.h": {"calls": lambda kinds, _: enum(kinds, "frontend", "COVRETIN_CALL_")},
    "include/covretin_channel.h": {"calls": lambda kinds, _: enum(kinds, "backend", "COVRETIN_CHANNEL_CALL_", "_MSG")},
    "c/covretin_text.c": {"requests of a frontend": names_in_c("frontend"), "requests of a backend": names_in_c("backend")},
    "c/covretin_log.c": {"what is wanted": wants_in_c, "rules of a queue": rules_in_c},
    "c/covretin_features.h": {"features that are wanted": features},
    "c/covretin_reasons.h": {"reasons": reasons_in_c},
    "c/ask_calls.c": {"calls of plain arguments": asks_plain, "calls": asks},
    "c/tests/requests.def": {"requests": requests_in_c},
    "c/tests/peer.h": {"codes": lambda kinds, _: [f"{it['name']} = {it['code']}," for it in kinds["frontend"]]},
    "rust/src/vhost_user/message.rs": {"requests of a frontend": codes("frontend"), "requests of a backend": codes("backend")},
    "rust/src/vhost_user/gpu_message.rs": {"requests to a display": codes("display")},
    "rust/src/vhost_user/backend_req_handler.rs": {"calls without an argument": serving},
    "rust/src/foreign/session.rs": {"calls of plain arguments": foreign},
    "rust/tests/common/requests.rs": {"requests": requests_in_rust},
    "rust/tests/common/device.rs": {"calls that are noted": noted},
    "rust/src/tap/call.rs": {"forms": forms_in_tap},
    "rust/src/tap/refused.rs": {"requests with a reply": replied},
    "rust/src/reasons.rs": {"reasons": reasons_in_rust},
    "rust/src/why.rs": {"what is wanted": wants},
    "rust/src/queue/mod.rs": {"rules of a queue": rules_in_rust},
    "rust/src/tap/layout.rs": {"requests": layouts("frontend", "shown"), "replies": layouts("frontend", "reply_shown"),
                               "requests of a backend": layouts("backend", "shown")},
    "protocol/vhost_user.lua": {"requests": dissected("frontend"), "requests of a backend": dissected("backend")},
    "tests/player/calls.py": {"calls of one word an argument": plain_calls},
    "tests/player/device.py": {"calls": device_calls},
    "vhost-run": {"calls": usages},
    f"{MESSAGE}/src/frontend_req.rt": {"variants": variants("frontend", True), "requests": read_numbers("frontend", "FrontendReq")},
    f"{MESSAGE}/src/heard_req.rt": {"variants": variants("frontend"), "numbers": numbers("frontend", "HeardReq"),
                                    "requests": read_numbers("frontend", "HeardReq")},
    f"{MESSAGE}/src/backend_req.rt": {"variants": variants("backend", True), "requests": read_numbers("backend", "BackendReq")},
    f"{MESSAGE}/specs/HeardReq.antt": {"numbers": numbers_in_logic("frontend", "request_number")},
    f"{DISPLAY}/src/gpu_backend_req.rt": {"variants": variants("display", True), "requests": read_numbers("display", "GpuBackendReq")},
    "crates/vhost_lines/src/call_words/why.rt": {"calls": words, "help": helped},
    "crates/vhost_lines/src/call_words/table.rt": {"calls": readers},
    "crates/vhost_comparing/src/calls.rt": {"calls": compared},
    "crates/vhost_recorder/src/copying/calls.rt": {"calls": copied},
}


def written(path, text, kinds):
    """A file's text with its tables as they are to be, and what is wrong with its marks."""
    tables, wrong, lines, found = dict(TABLES[path]), [], [], None
    for number, line in enumerate(text.split("\n"), 1):
        begins = BEGINS.match(line)
        if begins:
            found, old = begins, []
            lines.append(line)
        elif found and ENDS.match(line):
            table = tables.pop(found[2], None)
            if table is None:
                wrong.append(f"{path}:{number}: no table of it is named {found[2]!r}, or two are")
                lines += old
            else:
                lines += [f"{found[1]}{it}".rstrip() for it in table(kinds, old)]
            lines.append(line)
            found = None
        elif found:
            old.append(line)
        else:
            lines.append(line)
    wrong += [f"{path}: its table {name!r} is missing" for name in tables]
    if found:
        wrong.append(f"{path}: its table {found[2]!r} has no end")
    return "\n".join(lines), wrong


def by_hand(text):
    """A file's text without its tables."""
    lines, is_in = [], False
    for line in text.split("\n"):
        is_in = bool(BEGINS.match(line)) or is_in and not ENDS.match(line)
        lines += [] if is_in else [line]
    return "\n".join(lines)
