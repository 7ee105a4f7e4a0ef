#!/bin/sh
# Times `kbuild_cond::read_kbuild` over the Kbuild texts of a kernel beside GNU make's own reading of the same texts (`make -qp` over each
# alone), and prints how many texts, files and paths there are. Then it asks GNU make, for each CONFIG that is given (a whole .config of
# that kernel), which objects the kernel's own rules list, and prints each that is listed where all our paths are off; none is right.
# Usage: bench/kbuild.sh KERNEL [CONFIG ..]. The root text is the kernel's `Kbuild` with `arch/x86/` for `arch/$(SRCARCH)/`.
set -e
here=$(cd "$(dirname "$0")/.." && pwd)
kernel=$(cd "$1" && pwd)
shift
configs=
for config; do configs="$configs $(cd "$(dirname "$config")" && pwd)/$(basename "$config")"; done
. "$here/bench/driver.sh"
new_driver kbuild_times 'sqlite_items' ut_base kbuild_cond

cat >crates/kbuild_times/src/main.rt <<'RT'
//! Reads the Kbuild texts from `Kbuild` on, prints how long it took and how much there is, and writes the
//! files with their paths to the standard error.
#![tactic(auto)]

use kbuild_cond::{FileConds, golem_text, read_kbuild};
use std::io;
use std::time::Instant;
use ut_base::{DiskFiles, Meter, Name};

/// How many files and paths there are, and the most paths of one file.
fn counts(conds: &FileConds) -> (usize, usize, usize) {
    let (names, conds) = conds.files();
    let mut paths = 0usize;
    let mut most = 0usize;
    for cond in conds {
        let count = cond.paths.as_slice().len();
        paths = paths.saturating_add(count);
        most = most.max(count);
    }
    (names.len(), paths, most)
}

fn main(rt: HostRuntime) -> io::Result<()> {
    let alloc = rt.alloc();
    let Some(root) = Name::new(alloc, "Kbuild")? else {
        return Ok(());
    };
    let mut files = DiskFiles::new(&rt);
    let mut meter = Meter::new();
    let start = Instant::now(&rt)?;
    let read = read_kbuild(alloc, &mut files, &root, &mut meter);
    let micros = start.elapsed(&rt)?.as_micros();
    match read {
        Ok(conds) => {
            let (named, paths, most) = counts(&conds);
            println!(rt; "read_kbuild: {micros} microseconds, {} bytes, {named} files, {paths} paths, at most {most} for one", meter.used())?;
            let text = String::from_utf8_lossy(alloc, &golem_text(alloc, &conds)?)?;
            eprintln!(rt; "{text}")
        }
        Err(bad) => println!(rt; "refused: {bad}"),
    }
}
RT
build_driver

# The texts alone, with a root text that names the architecture.
mkdir "$data/kernel"
(cd "$kernel" && find . \( -name Kbuild -o -name Makefile \) -type f | tar -cf - -T -) | tar -xf - -C "$data/kernel"
sed -i 's,arch/$(SRCARCH)/,arch/x86/,' "$data/kernel/Kbuild"
cd "$data/kernel"
"$data/crates/kbuild_times/out/kbuild_times" 2>"$data/files"

# GNU make reads each text that was read, alone: that of each folder of a file, as a part of one makefile that has no goal.
sed 's, .*,,; s,[^/]*$,,' "$data/files" | sort -u | while read -r folder; do
    if [ -f "$folder"Kbuild ]; then echo "$folder"Kbuild; elif [ -f "$folder"Makefile ]; then echo "$folder"Makefile; fi
done >"$data/texts"
start=$(date +%s%N)
while read -r text; do make -qp -f "$text" srctree=. src="$(dirname "$text")" obj="$(dirname "$text")" >/dev/null 2>&1 || true; done <"$data/texts"
end=$(date +%s%N)
echo "make -qp over $(wc -l <"$data/texts") texts: $(((end - start) / 1000)) microseconds"

# Which objects the kernel's rules list under a configuration: obj-y, obj-m, lib-y and lib-m of each folder that they lead to, and parts.
cat >"$data/lists.mk" <<'MK'
src := $(obj)
srctree := .
include $(config)
include $(text)
list = $(foreach word,$(filter %.o,$(obj-y) $(obj-m) $(lib-y) $(lib-m)),$(info object $(obj)/$(word)) $(foreach part,$($(word:.o=-objs)) $($(word:.o=-y)) $($(word:.o=-m)),$(info object $(obj)/$(part))))
$(list)
$(foreach word,$(filter %/,$(obj-y) $(obj-m)),$(info folder $(obj)/$(word)))
all: ;
MK
cat >"$data/ask.py" <<'PY'
import os, re, subprocess, sys

config, data = sys.argv[1:]
values = dict(re.findall(r"^CONFIG_(\w+)=([ym])$", open(config).read(), re.M))
paths = {}
for line in open(os.path.join(data, "files")):
    if line.strip():
        name, text = line.rstrip("\n").split(" ", 1)
        paths[name] = text.split(" || ")


def is_on(path):
    """A free step may hold."""
    steps = [re.fullmatch(r"CONFIG_(\w+)", step) for step in path.split(" && ")]
    return all(not step or step[1] in values for step in steps)


seen, todo, listed, off = {"."}, ["."], 0, 0
while todo:
    folder = todo.pop(0)
    text = next((t for t in (folder + "/Kbuild", folder + "/Makefile") if os.path.exists(t)), None)
    if text is None:
        continue
    out = subprocess.run(["make", "-s", "-f", data + "/lists.mk", "obj=" + folder, "text=" + text, "config=" + config], capture_output=True, text=True).stdout
    for kind, name in re.findall(r"^(object|folder) (\S+)$", out, re.M):
        name = re.sub(r"^\./", "", name)
        if kind == "folder":
            name = name.rstrip("/")
            if name not in seen:
                seen.add(name)
                todo.append(name)
            continue
        listed += 1
        ours = paths.get(name[:-2])
        if ours is not None and not any(is_on(path) for path in ours):
            off += 1
            print("%s is listed, and off by %s" % (name, " || ".join(ours)))
print("%s: %d objects listed by GNU make, %d of them off by our paths" % (os.path.basename(config), listed, off))
PY
for config in $configs; do python3 "$data/ask.py" "$config" "$data"; done
