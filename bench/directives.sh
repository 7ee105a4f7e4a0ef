#!/bin/sh
# Times the reader of C directives (`cpp_read::directives`) beside `cpp -fdirectives-only` and `grep -c` on the
# same 48 MB of C text, three files of 16 MB each, and prints each time and its ratio to the reader's. Then it times
# the reader on texts of one kind, each with 1.6 MB and with 16 MB, and prints the ratio of the two times.
# The small program that calls the reader is made in a folder of its own.
set -e
here=$(cd "$(dirname "$0")/.." && pwd)
. "$here/bench/driver.sh"
new_driver directive_times '' ut_logic cpp_read

cat >crates/directive_times/src/main.rt <<'RT'
//! Counts the directives of each file that it is given.
#![tactic(auto)]

use cpp_read::directives;
use std::{env, fs, io};

fn main(rt: HostRuntime) -> io::Result<()> {
    let alloc = rt.alloc();
    for word in env::args(&rt)?.skip(1) {
        let bytes = fs::read(&rt, word.as_str())?;
        if bytes.len() <= 16_777_216 {
            match directives(alloc, &bytes) {
                Ok(list) => println!(rt; "{} directives", list.len())?,
                Err(bad) => println!(rt; "{bad}")?,
            }
        }
    }
    Ok(())
}
RT

awk -v out="$data/text" 'BEGIN {
    for (file = 1; file <= 3; file++) {
        name = out file ".c"
        size = 0
        for (i = 0; size < 16000000; i++) {
            text = "/*\n * Part " i " of the driver.\n */\n" \
                "#ifdef CONFIG_PART_" (i % 97) "\nstatic int part_" i "_probe(struct device *dev, const char *name)\n{\n" \
                "\tint err = 0;\t// what is left\n\n\tif (!dev || !name)\n\t\treturn -EINVAL;\n" \
                "\tdev_info(dev, \"part %s: \\\"%d\\\" /* no comment */\\n\", name, " i ");\n" \
                "#if IS_ENABLED(CONFIG_NET) && !defined(CONFIG_PART_" (i % 89) "_DEBUG)\n\terr = part_start(dev, 0x" i ");\n" \
                "#else\n\terr = part_stop(dev);\n#endif\n\treturn err;\n}\n#endif /* CONFIG_PART */\n\n" \
                "#define PART_" i "_SIZE 16\n#define PART_" i "(x) ((x) << PART_SHIFT)\n\n"
            printf "%s", text > name
            size += length(text)
        }
        close(name)
    }
}'
bytes=$(cat "$data"/text*.c | wc -c)
build_driver
program=$data/crates/directive_times/out/directive_times

now() { date +%s%N; }
best() {
    least=
    for turn in 1 2 3 4 5; do
        begin=$(now)
        "$@" > /dev/null 2>&1 || true
        took=$(( ($(now) - begin) / 1000000 ))
        if [ -z "$least" ] || [ "$took" -lt "$least" ]; then least=$took; fi
    done
    echo "$least"
}
each_cpp() { for file in "$data"/text*.c; do cpp -fdirectives-only '-DIS_ENABLED(x)=1' "$file"; done; }

# through a pipe, since grep stops at the first line where its output goes nowhere
each_grep() { grep -c '^#' "$data"/text*.c | cat; }

reader=$(best "$program" "$data"/text*.c)
row() { awk -v name="$1" -v ms="$2" -v own="$reader" -v bytes="$bytes" 'BEGIN { printf "%-24s %6d ms %8.1f MB/s %6.2f\n", name, ms, bytes / 1000 / ms, ms / own }'; }
echo "bytes $bytes"
row directives "$reader"
row 'cpp -fdirectives-only' "$(best each_cpp)"
row 'grep -c' "$(best each_grep)"

# of_kind KIND SIZE: a text of about so many bytes
of_kind() {
    awk -v kind="$1" -v size="$2" 'BEGIN {
        if (kind == "condition") { printf "#if A"; for (i = 10; i < size; i += 5) printf " || B"; print "\n#endif" }
        if (kind == "negated") {
            row = sprintf("%199s", ""); gsub(/ /, "!", row)
            printf "#if %sA", row; for (i = 204; i < size; i += 204) printf " || %sB", row; print "\n#endif"
        }
        if (kind == "nested") {
            row = sprintf("%199s", ""); open = row; gsub(/ /, "(", open); gsub(/ /, ")", row)
            printf "#if %sA", open; for (i = 400; i < size; i += 5) printf " || B"; print row "\n#endif"
        }
        if (kind == "line") { for (i = 0; i < size; i += 4) printf "a = " }
        if (kind == "comment") { printf "/*"; for (i = 2; i < size; i += 8) print "no word" }
        if (kind == "refused") { for (i = 0; i < size; i += 6) print "#if 0" }
    }'
}
for kind in condition negated nested line comment refused; do
    of_kind $kind 1600000 > "$data/short.c"
    of_kind $kind 16000000 > "$data/long.c"
    short=$(best "$program" "$data/short.c" "$data/short.c" "$data/short.c" "$data/short.c" "$data/short.c")
    long=$(best "$program" "$data/long.c" "$data/long.c" "$data/long.c" "$data/long.c" "$data/long.c")
    awk -v kind="$kind" -v short="$short" -v long="$long" 'BEGIN { printf "five of one %-12s %6d ms %6d ms %6.2f\n", kind, short, long, long / short }'
done
