# Sourced by the scripts that read the Kconfig texts of a kernel beside other tools.

# kernel_texts FOLDER: copies the Kconfig texts of a kernel to $data/kernel, with macros replaced by constants, and with
# `option modules` for `modules`, which kconfiglib doesn't read. It runs $python.
kernel_texts() {
    mkdir "$data/kernel"
    (cd "$1" && find . -name 'Kconfig*' -type f | tar -cf - -T -) | tar -xf - -C "$data/kernel"
    cat >"$data/plain.py" <<'PY'
import os, re

call = re.compile(r"\$\([^()]*(\([^()]*(\([^()]*\)[^()]*)*\)[^()]*)*\)")
dropped = re.compile(r"\s*source \"scripts/Kconfig.include\"")


def plain(lines):
    for line in lines:
        if dropped.match(line):
            continue
        line = re.sub(r"^(\s+)modules$", r"\1option modules", line)
        yield call.sub("y", line.replace("$(SRCARCH)", "x86"))


for folder, _, names in os.walk("."):
    for name in names:
        path = os.path.join(folder, name)
        with open(path, encoding="latin-1") as file:
            lines = file.read().split("\n")
        with open(path, "w", encoding="latin-1") as file:
            file.write("\n".join(plain(lines)))
PY
    (cd "$data/kernel" && "$python" "$data/plain.py")
}
