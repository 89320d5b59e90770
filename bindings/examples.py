#!/usr/bin/env python3
"""Says what of a Rust crate has no example in its documentation:

    bindings/examples.py JSON

JSON is what rustdoc writes of the crate. The crate itself and every public type, function and method need an example;
fields, variants and constants are shown by those. Fails where one has none, or where nothing is public."""
import json
import re
import sys

NEED = {"module", "struct", "enum", "union", "trait", "macro", "function"}
# What stands after the quotes that begin a block of Rust which is compiled.
RUST = {"", "rust", "no_run", "should_panic", "compile_fail"}


def needs(item):
    return item["crate_id"] == 0 and item["visibility"] == "public" and NEED & set(item["inner"])


def has(item):
    """Every other line of quotes begins a block."""
    return RUST & set(re.findall(r"(?m)^ *```(.*)$", item["docs"] or "")[::2])


with open(sys.argv[1]) as file:
    public = list(filter(needs, json.load(file)["index"].values()))
lacking = ["%s: %s has no example" % (item["span"]["filename"], item["name"]) for item in public if not has(item)]
print("\n".join(sorted(lacking)) or "%d items have an example each" % len(public))
sys.exit(1 if lacking or not public else 0)
