#!/usr/bin/env python3
# SPDX-License-Identifier: Apache-2.0
"""tests/rust_names.py [--keep] [CRATE]: whether each public name of a crate is a name of the package that stands in its place, too.

CRATE is vhost, of which its vhost-user part is meant and which is the default, or virtio-queue. Its names stand in rust/CRATE/names.txt; one
that is not ours has to stand in a table of rust/CRATE/README.md, under "Names that are not here", whose first column are names, where a star
stands for anything; and each row there has to be of use. With COVRETIN_VHOST, or COVRETIN_VIRTIO_QUEUE, a folder with the crate's sources,
its names are taken from there, and have to be those of the list. --keep writes the list of them.
COVRETIN_CRATES: a folder of crates in place of /usr/share/cargo/registry; the crate's sources, and rust/virtio-queue, need one that has what
they depend on.

A name is a module, a type, a trait, a constant; a field, a variant, a call of a type; a trait that a type implements, as `Type: Trait`. It is
what rustdoc writes as JSON, which this asks of a stable compiler, too.

Status 0 where all are there; 1 where some are not, and each is printed; 2 after wrong arguments; 3 where cargo or what it needs is missing.
"""
import fnmatch
import json
import os
import re
import shutil
import subprocess
import sys
import tempfile

TOP = os.path.dirname(os.path.dirname(os.path.realpath(__file__)))
HEADING = "## Names that are not here"
CRATES = os.environ.get("COVRETIN_CRATES") or "/usr/share/cargo/registry"


class Package:
    """A crate, which features of it are meant, and where ours in its place is documented."""

    def __init__(self, name, folder, features, part):
        self.name, self.folder, self.features = name, folder, features
        self.names = f"{TOP}/rust/{name}/names.txt"
        self.page = f"{TOP}/rust/{name}/README.md"
        self.sources = os.environ.get(f"COVRETIN_{name.upper().replace('-', '_')}")
        self.head = f"# The public names of the crate {name} {{}}{part} (tests/rust_names.py --keep).\n"


# (of vhost without what is of the kernel or of Xen)
PACKAGES = [
    Package("vhost", "rust", "vhost-user,vhost-user-frontend,vhost-user-backend,postcopy,postcopy-frontend,test-utils", ", of its vhost-user part"),
    Package("virtio-queue", "rust/virtio-queue", "test-utils", ""),
]


class Missing(Exception):
    """What is needed is not there."""


def documented(folder, features):
    """What rustdoc says of the package in a folder."""
    source = ["--config", 'source.crates-io.replace-with="here"', "--config", f'source.here.directory="{CRATES}"']
    words = ["cargo", "rustdoc", "--lib", "--quiet", "--offline", *source, "--features", features]
    words += ["--", "-Zunstable-options", "--output-format=json", "--cap-lints=allow"]
    with tempfile.TemporaryDirectory() as target:
        env = {**os.environ, "RUSTC_BOOTSTRAP": "1", "CARGO_TARGET_DIR": target}
        ended = subprocess.run(words, cwd=folder, env=env, capture_output=True, text=True, check=False)
        files = [f"{target}/doc/{file}" for file in os.listdir(f"{target}/doc")] if os.path.isdir(f"{target}/doc") else []
        found = [file for file in files if file.endswith(".json")]
        if ended.returncode or not found:
            raise Missing(f"{folder}: rustdoc writes no JSON:\n{ended.stderr}")
        with open(found[0], encoding="utf-8") as text:
            return json.load(text)


def copy_of(folder, room):
    """A copy of a package, so that cargo leaves nothing there."""
    copied = f"{room}/{os.path.basename(folder)}"
    shutil.copytree(folder, copied, ignore=shutil.ignore_patterns("target", "Cargo.lock", "*.orig", ".cargo"))
    return copied


def upstream_of(package):
    """What rustdoc says of the crate's sources, whose tests' crates are not needed."""
    folder = package.sources
    if not os.path.isfile(f"{folder}/Cargo.toml"):
        raise Missing(f"no Cargo.toml in {folder}")
    with tempfile.TemporaryDirectory() as room:
        copied = copy_of(os.path.realpath(folder), room)
        with open(f"{copied}/Cargo.toml", encoding="utf-8") as text:
            manifest = text.read()
        with open(f"{copied}/Cargo.toml", "w", encoding="utf-8") as text:
            text.write(re.sub(r"(?ms)^\[dev-dependencies.*?(?=^\[(?!dev-dependencies)|\Z)", "", manifest))
        wanted = [name for name in package.features.split(",") if re.search(rf"(?m)^{name} *=", manifest)]
        return documented(copied, ",".join(wanted))


def ours(package):
    """What rustdoc says of the package of this repository."""
    with tempfile.TemporaryDirectory() as room:
        copy_of(f"{TOP}/rust", room)
        for it in ("include", "generated"):
            shutil.copytree(f"{TOP}/{it}", f"{room}/{it}")
        os.makedirs(f"{room}/docs")
        shutil.copy(f"{TOP}/docs/TAP.md", f"{room}/docs/")
        return documented(f"{room}/{package.folder}", package.features)


def type_text(kind, way=lambda it: it["path"].split("::")[-1]):
    """A type as it is written, each name in it by the way that is given: at first its last word."""
    if not isinstance(kind, dict):
        return "_"
    (word, it), = kind.items()
    if word == "resolved_path":
        return way(it) + arguments(it.get("args"), way)
    if word in ("primitive", "generic"):
        return it
    if word == "slice":
        return f"[{type_text(it, way)}]"
    if word == "array":
        return f"[{type_text(it['type'], way)}; {it['len']}]"
    if word == "borrowed_ref":
        return ("&mut " if it["is_mutable"] else "&") + type_text(it["type"], way)
    if word == "tuple":
        return "(" + ", ".join(type_text(each, way) for each in it) + ")"
    if word in ("dyn_trait", "impl_trait"):
        bounds = it["traits"] if word == "dyn_trait" else [bound["trait_bound"] for bound in it if "trait_bound" in bound]
        return " ".join([word[:-6], *(way(bound["trait"]) for bound in bounds)])
    return "_"


def arguments(args, way):
    """The arguments of a type or of a trait."""
    given = (args or {}).get("angle_bracketed", {}).get("args", [])
    words = [type_text(it["type"], way) for it in given if "type" in it]
    return f"<{', '.join(words)}>" if words else ""


def signature(call):
    """What a call takes and gives."""
    takes = ", ".join(type_text(kind) if name != "self" else type_text(kind).replace("Self", "self") for name, kind in call["inputs"])
    return f"({takes})" + (f" -> {type_text(call['output'])}" if call["output"] else "")


class Crate:
    """The names of a crate."""

    def __init__(self, said):
        self.index = said["index"]
        self.paths = said["paths"]
        self.version = said["crate_version"]
        self.name = self.index[str(said["root"])]["name"]
        self.names = set()
        self.walk(str(said["root"]), "")

    def walk(self, at, path):
        """What a module has, by the way that leads there; what it takes in of another is its own."""
        for number in self.index[at]["inner"]["module"]["items"]:
            item = self.index.get(str(number))
            if item is None or item["visibility"] != "public" and "impl" not in item["inner"]:
                continue
            (kind, inner), = item["inner"].items()
            if kind == "use":
                target = str(inner["id"])
                if target not in self.index:
                    continue
                if inner["is_glob"]:
                    self.walk(target, path)
                else:
                    self.add(self.index[target], path, inner["name"])
            elif kind != "impl":
                self.add(item, path, item["name"])

    def add(self, item, path, name):
        """An item of a module, and what it has."""
        (kind, inner), = item["inner"].items()
        self.names.add(f"{path}{name}")
        if kind == "module":
            self.walk(str(item["id"]), f"{path}{name}::")
        elif kind == "trait":
            self.members(f"{path}{name}", inner["items"])
        elif kind == "enum":
            self.members(f"{path}{name}", inner["variants"])
            self.impls(f"{path}{name}", item["id"], inner["impls"])
        elif kind == "struct":
            fields = inner["kind"].get("plain", {}).get("fields", []) if isinstance(inner["kind"], dict) else []
            self.members(f"{path}{name}", fields, "public")
            self.impls(f"{path}{name}", item["id"], inner["impls"])

    def members(self, owner, numbers, visibility=None):
        """What a type or a trait has: what is public of it, where that is said."""
        for number in numbers:
            item = self.index.get(str(number))
            if item is not None and item["name"] and visibility in (None, item["visibility"]):
                call = item["inner"].get("function")
                self.names.add(f"{owner}::{item['name']}" + (signature(call["sig"]) if call else ""))

    def impls(self, owner, own, numbers):
        """What a type implements, and its own calls; not what the compiler gives each type, nor what derives a comparison has, too."""
        for number in numbers:
            item = self.index.get(str(number))
            it = item and item["inner"].get("impl")
            if not it or it["is_synthetic"] or it["blanket_impl"]:
                continue
            if not it["trait"]:
                self.members(owner, it["items"], "public")
            elif it["trait"]["path"] != "StructuralPartialEq":
                is_own = it["for"].get("resolved_path", {}).get("id") == own
                text = self.foreign(it["trait"]) + arguments(it["trait"].get("args"), self.whole)
                self.names.add(f"{owner if is_own else type_text(it['for'], self.whole)}: {text}")

    def foreign(self, it):
        """A name by its last word, behind the crate's where it is neither of this one nor of the language."""
        path = self.paths.get(str(it["id"]), {}).get("path", [it["path"]])
        return path[-1] if path[0] in (self.name, "std", "core", "alloc") else f"{path[0]}::{path[-1]}"

    def whole(self, it):
        """The same, of this crate by its path."""
        path = self.paths.get(str(it["id"]), {}).get("path", [it["path"]])
        return "::".join(path[1:]) if path[0] == self.name else self.foreign(it)


def rows_of(page):
    """The names of a page's table: each as a pattern, with its reason."""
    with open(page, encoding="utf-8") as text:
        section = text.read().partition(HEADING)[2].partition("\n## ")[0]
    for line in section.split("\n"):
        cells = [cell.strip() for cell in re.split(r"(?<!\\)\|", line)[1:-1]]
        if len(cells) == 2 and "`" in cells[0]:
            for pattern in re.findall(r"`([^`]+)`", cells[0]):
                yield pattern, cells[1]


def matches(name, pattern):
    """Whether a name is one of a row. A bracket is a bracket."""
    return fnmatch.fnmatchcase(name, re.sub(r"\[", "[[]", pattern))


def kept_names(package):
    """The list of the repository."""
    with open(package.names, encoding="utf-8") as text:
        return {line.rstrip("\n") for line in text if line.strip() and not line.startswith("#")}


def judge(package, theirs, own):
    """Prints what is wrong; how many."""
    rows = dict(rows_of(package.page))
    absent = sorted(theirs - own)
    wrong = [f"no name of ours, and in no row: {name}" for name in absent if not any(matches(name, row) for row in rows)]
    wrong += [f"a row without a reason: {row}" for row, reason in rows.items() if not reason]
    wrong += [f"a row of no use: {row}" for row in rows if not any(matches(name, row) for name in absent)]
    for line in wrong:
        print(line)
    if not wrong:
        print(f"{len(theirs)} names: {len(theirs) - len(absent)} are ours, {len(absent)} have a row")
    return len(wrong)


def main(words):
    """The status."""
    is_to_keep = words[:1] == ["--keep"]
    wanted = words[is_to_keep:] or ["vhost"]
    found = [it for it in PACKAGES if [it.name] == wanted]
    if not found:
        print(__doc__, file=sys.stderr)
        return 2
    package = found[0]
    if is_to_keep and not package.sources:
        print(f"--keep: COVRETIN_{package.name.upper().replace('-', '_')} is the folder of the crate's sources", file=sys.stderr)
        return 2
    try:
        kept = set() if is_to_keep else kept_names(package)
        if package.sources:
            crate = Crate(upstream_of(package))
            if is_to_keep:
                with open(package.names, "w", encoding="utf-8") as text:
                    text.write(package.head.format(crate.version) + "".join(f"{name}\n" for name in sorted(crate.names)))
                kept = crate.names
            elif crate.names != kept:
                for name in sorted(crate.names ^ kept):
                    print(f"{'not kept' if name in crate.names else 'kept, and not there'}: {name}")
                return 1
        return 1 if judge(package, kept, Crate(ours(package)).names) else 0
    except (Missing, OSError) as cause:
        print(f"rust_names.py: {cause}", file=sys.stderr)
        return 3


if __name__ == "__main__":
    sys.exit(main(sys.argv[1:]))
