#!/bin/sh
# Asks python3-kconfiglib whether it reads the same from the Kconfig texts of a kernel as `kconf_parse::read_tree` does: the configs in
# order, and of each what it depends on, its prompt, its defaults, its selects and its implies, with their conditions, `visible if` among
# them. An And list is compared as the set of its members, since the tools join conditions in different orders. Prints how many configs
# were compared, and those that differ.
# Usage: bench/entries.sh FOLDER; PYTHON names the Python that has kconfiglib, else it is python3. Without it nothing is asked.
set -e
here=$(cd "$(dirname "$0")/.." && pwd)
kernel=$(cd "$1" && pwd)
python=${PYTHON:-python3}
"$python" -c 'import kconfiglib' 2>/dev/null || {
    echo "kconfiglib is not installed: nothing is asked"
    exit 0
}
. "$here/bench/driver.sh"
. "$here/bench/kernel_texts.sh"
new_driver kconfig_entries 'indexmap sqlite_items thiserror' ut_base ut_logic kconf_entries kconf_texts kconf_parse
cp "$here/crates/kconf_parse_rows/src/written.rt" crates/kconfig_entries/src/written.rt

cat >crates/kconfig_entries/src/main.rt <<'RT'
//! Prints the entries of the tree `Kconfig`, or why it has none.
#![tactic(auto)]

mod written;

use kconf_parse::read_tree;
use std::io;
use ut_base::{DiskFiles, Meter, Name};
use written::{entries_text, refusal_text};

fn main(rt: HostRuntime) -> io::Result<()> {
    let alloc = rt.alloc();
    let Some(root) = Name::new(alloc, "Kconfig")? else {
        return Ok(());
    };
    let mut files = DiskFiles::new(&rt);
    let mut meter = Meter::new();
    let text = match read_tree(alloc, &mut files, &root, &[], &mut meter) {
        Ok(entries) => entries_text(alloc, &entries, "; ")?,
        Err(bad) => refusal_text(alloc, &bad)?,
    };
    println!(rt; "{}", text)
}
RT
build_driver

cat >compare.py <<'PY'
import re, sys
from collections import defaultdict
import kconfiglib as lib

SIGNS = {
    lib.EQUAL: "=",
    lib.UNEQUAL: "!=",
    lib.LESS: "<",
    lib.LESS_EQUAL: "<=",
    lib.GREATER: ">",
    lib.GREATER_EQUAL: ">=",
}


def joined(word, parts):
    """An And or Or list as the set of its members; y and, beside m, MODULES bring nothing to an And list."""
    members = []
    for part in parts:
        members += part[1] if isinstance(part, tuple) and part[0] == word else [part]
    if word == "and":
        members = [member for member in members if member != "y"]
        if "m" in members:
            members = [member for member in members if member != "MODULES"]
        if "n" in members:
            members = ["n"]
        if not members:
            return "y"
    members = frozenset(members)
    return next(iter(members)) if len(members) == 1 else (word, members)


def theirs(expr):
    """An expression of kconfiglib's; a choice stands for what it depends on."""
    if isinstance(expr, lib.Choice):
        return joined("and", [theirs(node.dep) for node in expr.nodes])
    if not isinstance(expr, tuple):
        return expr.name
    if expr[0] == lib.NOT:
        return ("not", theirs(expr[1]))
    if expr[0] in SIGNS:
        return ("compare", expr[1].name, SIGNS[expr[0]], expr[2].name)
    return joined("and" if expr[0] == lib.AND else "or", [theirs(expr[1]), theirs(expr[2])])


SIDE = r"('[^']*'|#[^\s=!<>)]*|\w+)"
OPERAND = re.compile(SIDE + r"(?:(=|!=|<=|>=|<|>)" + SIDE + ")?")


def bare(side):
    return side.strip("'").lstrip("#")


def read_ours(text, at):
    """The expression of ours at this place, and the place behind it."""
    if text[at] == "!":
        inner, at = read_ours(text, at + 1)
        return ("not", inner), at
    if text.startswith(("(and ", "(or "), at):
        word = text[at + 1 : text.index(" ", at)]
        at += 1 + len(word)
        members = []
        while text[at] == " ":
            member, at = read_ours(text, at + 1)
            members.append(member)
        return joined(word, members), at + 1
    found = OPERAND.match(text, at)
    if found[2]:
        return ("compare", bare(found[1]), found[2], bare(found[3])), found.end()
    return bare(found[1]), found.end()


def ours(text):
    expr, at = read_ours(text, 0)
    assert at == len(text), text
    return expr


def default(value):
    """The value of a default: a text that is no expression stands between quote marks behind n."""
    found = re.fullmatch(r"(.*?)(?: '(.*)')?", value)
    return found[2] if found[2] is not None and found[1] == "n" else ours(found[1])


def parts_of(config):
    """What a config of ours has: its dependencies, last prompt, defaults and selects."""
    words = re.split(r" (depends|prompt|default|select|imply|modules) ?", config)
    has = defaultdict(list)
    for word, text in zip(words[1::2], words[2::2]):
        if word in ("default", "select", "imply"):
            value, cond = text.rsplit(" if ", 1)
            has[word].append((default(value) if word == "default" else value, ours(cond)))
        elif word != "modules":
            has[word].append(ours(text))
    return has["depends"], has["prompt"][-1:], has["default"], has["select"], has["imply"]


def parts_of_node(node):
    return (
        [theirs(node.dep)],
        [theirs(node.prompt[1])] if node.prompt else [],
        [(theirs(value), theirs(cond)) for value, cond in node.defaults],
        [(target.name, theirs(cond)) for target, cond in node.selects],
        [(target.name, theirs(cond)) for target, cond in node.implies],
    )


text = sys.stdin.read()
entries = re.split(r"; (?=\w+ (?:bool|tristate|string|hex|int|untyped) |choice |\n)", text)
configs = [entry for entry in entries if entry.strip() and not entry.startswith("choice ")]
nodes = [node for node in lib.Kconfig("Kconfig", warn=False).node_iter() if isinstance(node.item, lib.Symbol)]
if [config.split()[0] for config in configs] != [node.item.name for node in nodes]:
    sys.exit("the tools read other symbols: %d and %d configs" % (len(configs), len(nodes)))
differ = 0
for config, node in zip(configs, nodes):
    if parts_of(config) != parts_of_node(node):
        differ += 1
        print("%s:%d: %s" % (node.filename, node.linenr, config))
print("%d configs compared, %d differ" % (len(nodes), differ))
PY

kernel_texts "$kernel"
cd "$data/kernel"
export srctree=.
"$data/crates/kconfig_entries/out/kconfig_entries" | "$python" "$data/compare.py"
