#!/bin/sh
# Times one dead run on 4,096 symbols and 60,000 blocks beside `wc -l` on the same two files.
# Usage: bench/first_path.sh [PROGRAM]
set -e
here=$(cd "$(dirname "$0")/.." && pwd)
program=${1:-"$here/undertaker"}
data=$(mktemp -d)
trap 'rm -rf "$data"' EXIT

# Symbol i depends on symbol i / 2, so that a question reaches at most a dozen symbols.
awk 'BEGIN {
    for (i = 1; i <= 4096; i++) {
        printf "config G%d\n\tbool \"g%d\"\n", i, i
        if (i > 1) printf "\tdepends on G%d\n", int(i / 2)
    }
}' >"$data/Kconfig"

# Chains of four blocks: a symbol, one that it depends on, the opposite of a third, and a name that is not declared.
awk 'BEGIN {
    for (i = 1; i <= 15000; i++) {
        s = i % 4095 + 2
        printf "#ifdef CONFIG_G%d\n#ifdef CONFIG_G%d\n#ifndef CONFIG_G%d\n#ifdef CONFIG_T%d\nint x;\n", s, int(s / 2), i % 4096 + 1, i % 100
        printf "#endif\n#endif\n#endif\n#endif\n"
    }
}' >"$data/a.c"

seconds() {
    start=$(date +%s%N)
    "$@" >"$data/out"
    end=$(date +%s%N)
    echo $(((end - start) / 1000))
}

cd "$data"
"$program" >/dev/null 2>&1 || true # the wrapper builds the program at its first call
counting=$(seconds wc -l Kconfig a.c)
run=$(seconds "$program" -j dead --kconfig Kconfig a.c)
tail -n 1 out
echo "undertaker $run us, wc -l $counting us, ratio $((run / counting))"
