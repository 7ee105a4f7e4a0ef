# Sourced by the timings of Kconfig trees: a generated tree.

# new_tree FOLDER TEXTS SYMBOLS: a root text that sources TEXTS others, with SYMBOLS symbols in all. Each text is a menu with an `if` and
# configs, each with a prompt, a dependency, a default, a select and a help text of ten lines, which refer to symbols of other texts.
new_tree() {
    mkdir -p "$1"
    awk -v folder="$1" -v texts="$2" -v symbols="$3" 'BEGIN {
        print "config BASE\n\tbool \"base\"\n\nconfig MODULES\n\tbool \"modules\"\n\toption modules\n" >(folder "/Kconfig")
        help = "\thelp\n"
        for (i = 1; i <= 10; i++) help = help "\t  Line " i " of what the symbol is for, as users read it.\n"
        for (t = 0; t < texts; t++) {
            print "source \"f" t "\"" >(folder "/Kconfig")
            text = folder "/f" t
            printf "menu \"Drivers %d\"\n\tdepends on BASE\n\nif MODULES || BASE\n\n", t >text
            first = int((symbols - 2) * t / texts)
            behind = int((symbols - 2) * (t + 1) / texts)
            for (s = first; s < behind; s++) {
                printf "config S%d\n\t%s \"symbol %d\"", s, s % 3 ? "bool" : "tristate", s >text
                printf "%s\n", (s > 100 ? " if S" (s - 1 - s % 97) : "") >text
                if (s > 100) printf "\tdepends on (S%d || S%d) && S%d != n\n", s - 1 - s % 89, s - 1 - s % 61, s - 1 - s % 53 >text
                if (s > 100) printf "\tdefault y if S%d\n", s - 1 - s % 31 >text
                if (s + 100 < symbols - 2) printf "\tselect S%d if S%d\n", s + 1 + s % 83, s % 41 >text
                print help >text
            }
            print "endif\n\nendmenu" >text
            close(text)
        }
    }'
}
