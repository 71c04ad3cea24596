"""What QEMU's schema of backend programs (docs/interop/vhost-user.json) has, as far as it is needed here; and whether installed descriptor
files are of it: backend_schema.py ROOT, the folder that stands for /. Prints what is wrong; status 1 where something is.

A descriptor file is a VhostUserBackend, what --print-capabilities prints VHostUserBackendCapabilities.
"""

import glob
import json
import os
import subprocess
import sys

TYPES = "9p balloon block caif console crypto gpu input net rng rpmsg rproc-serial scsi vsock".split()
FEATURES = {"block": {"read-only", "blk-file"}, "input": {"evdev-path", "no-grab"}, "gpu": {"render-node", "virgl"}}


def wrong_capabilities(it):
    """What is wrong with capabilities; None where they are of the schema."""
    if not isinstance(it, dict) or it.get("type") not in TYPES:
        return "it has no type"
    known = FEATURES.get(it["type"])
    if set(it) != ({"type", "features"} if known else {"type"}):
        return f"it has {sorted(it)}"
    if known and not (isinstance(it["features"], list) and set(it["features"]) <= known):
        return f"features are {it['features']}"
    return None


def wrong_backend(it):
    """What is wrong with a descriptor; None where it is of the schema."""
    if not isinstance(it, dict) or not {"description", "type", "binary"} <= set(it) <= {"description", "type", "binary", "tags"}:
        return "it has other members"
    if not all(isinstance(it[name], str) for name in ("description", "type", "binary")) or it["type"] not in TYPES:
        return "a member is of another type"
    if not all(isinstance(tag, str) for tag in it.get("tags", [])):
        return "a tag is no string"
    return None


def wrong_descriptor(root, path):
    with open(path, encoding="utf-8") as file:
        it = json.load(file)
    why = wrong_backend(it)
    if why is not None:
        return why
    if not os.path.isabs(it["binary"]):
        return "its program has no whole path"
    said = json.loads(subprocess.run([root + it["binary"], "--print-capabilities"], capture_output=True, check=True).stdout)
    return wrong_capabilities(said) or (None if said["type"] == it["type"] else f"its program is of type {said['type']}")


def main():
    paths = sorted(glob.glob(f"{sys.argv[1]}/usr/share/qemu/vhost-user/*.json"))
    wrong = [(path, why) for path in paths if (why := wrong_descriptor(sys.argv[1], path)) is not None]
    for path, why in wrong:
        print(f"{path}: {why}")
    return 1 if wrong or not paths else 0


if __name__ == "__main__":
    sys.exit(main())
