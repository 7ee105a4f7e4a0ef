#!/bin/sh
# Measures the gate: how long the proof, the tests' proof and the edits of each crate take, slowest crate first, and the
# longest chain of proofs that wait for one another. It runs `rt ci NAME` for each crate, lowest first, as many side by
# side as there are processors, and ends with a plain `rt ci`.
# Usage: bench/gate.sh [LOGS]. LOGS is the folder for the logs; with a folder that has them, nothing is run and its table
# is printed. What an earlier run on the machine proved is kept and not proved again: such a crate shows "kept".
set -e
here=$(cd "$(dirname "$0")/.." && pwd)
logs=${1:-$(mktemp -d)}
mkdir -p "$logs"
logs=$(cd "$logs" && pwd)
jobs=$(nproc)

# Each crate of crates.txt with those of the repository that it stands on, a line each.
crates() {
    awk '
        { sub(/#.*/, "") }
        NF { name = $1; sub(/:.*/, "", name); rest = $0; sub(/^[^:]*:/, "", rest); order[++n] = name; deps[name] = rest }
        END {
            for (i = 1; i <= n; i++) {
                line = order[i] ":"
                m = split(deps[order[i]], dep, " ")
                for (k = 1; k <= m; k++) if (dep[k] in deps) line = line " " dep[k]
                print line
            }
        }' "$here/crates.txt"
}

# One crate: the lines of the gate's own that say how far it is, each after the second in which it came.
run_crate() {
    cd "$here"
    {
        date +'%s rt: begins'
        { ( rt ci "$1" || echo "rt: $1 does not pass"; times ) 2>&1; } |
            grep --line-buffered -E '^rt: |^[0-9]+m[0-9.]+s ' |
            while IFS= read -r line; do echo "$(date +%s) $line"; done
        date +'%s rt: ends'
    } >"$logs/$1.part"
    mv "$logs/$1.part" "$logs/$1.log"
}

if [ "${2:-}" = --one ]; then
    run_crate "$3"
    exit
fi

if ! ls "$logs"/*.log >/dev/null 2>&1; then
    {
        crates | sed 's/$/\n\t@sh bench\/gate.sh "$(LOGS)" --one $@ \&\& echo "$@" >\&2/'
        printf 'all:'
        crates | sed 's/:.*//' | tr '\n' ' ' | sed 's/^/ /'
        echo
        echo '.PHONY: all'
    } >"$logs/Makefile"
    (cd "$here" && make -f "$logs/Makefile" -j "$jobs" LOGS="$logs" all)
fi

crates >"$logs/crates"
awk -v logs="$logs" -v jobs="$jobs" '
    function minutes(seconds) { return sprintf("%.1f", seconds / 60) }
    function spent(text,  part) { split(text, part, /[ms]/); return part[1] * 60 + part[2] }
    function read_log(name,  file, line, field, at, rest) {
        file = logs "/" name ".log"
        begun = proved = tested = edits = ended = shells = 0
        kept = 0
        while ((getline line < file) > 0) {
            at = line + 0
            rest = line
            sub(/^[0-9]+ /, "", rest)
            if (rest == "rt: begins") begun = at
            if (rest == "rt: " name " proved") proved = at
            if (rest == "rt: " name ": its tests are proved") tested = at
            if (index(rest, "rt: " name " is kept") == 1) kept = 1
            if (index(rest, "rt: " name ": trying its must-fail edits") == 1) edits = at
            if (rest == "rt: ends") ended = at
            if (rest ~ /^[0-9]+m[0-9.]+s /) { shells++; if (shells == 2) { split(rest, field, " "); cpu[name] = spent(field[1]) + spent(field[2]) } }
        }
        close(file)
        own[name] = kept || !proved ? 0 : proved - begun
        tests[name] = tested ? tested - begun : 0
        edit[name] = edits ? ended - edits : 0
        is_kept[name] = kept
    }
    function chain(name,  i, n, dep, best, at) {
        if (name in far) return far[name]
        n = split(deps[name], dep, " ")
        best = 0
        before[name] = ""
        for (i = 1; i <= n; i++) { at = chain(dep[i]); if (at > best) { best = at; before[name] = dep[i] } }
        return far[name] = best + own[name]
    }
    { name = $1; sub(/:$/, "", name); names[++count] = name; $1 = ""; deps[name] = $0; read_log(name); all += cpu[name] }
    END {
        for (i = 1; i <= count; i++) chain(names[i])
        print "| Crate | Processor minutes | Proof | With its tests | Edits |"
        print "|---|---|---|---|---|"
        for (i = 1; i <= count; i++) {
            best = ""
            for (k = 1; k <= count; k++) if (!(names[k] in done) && (best == "" || cpu[names[k]] > cpu[best])) best = names[k]
            done[best] = 1
            printf "| `%s` | %s | %s | %s | %s |\n", best, minutes(cpu[best]), is_kept[best] ? "kept" : minutes(own[best]), tests[best] ? minutes(tests[best]) : "-", edit[best] ? minutes(edit[best]) : "-"
            if (last == "" || far[best] > far[last]) last = best
        }
        printf "\nAll: %s processor minutes, %d crates side by side.\n", minutes(all), jobs
        line = last
        for (at = before[last]; at != ""; at = before[at]) line = at ", " line
        printf "Longest chain of proofs: %s minutes (%s).\n", minutes(far[last]), line
    }' "$logs/crates"

if [ -z "${1:-}" ]; then
    (cd "$here" && rt ci)
fi
