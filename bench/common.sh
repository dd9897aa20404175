# What the scripts of this folder share. `here` is this folder, and `work` a new one, which is
# removed at the end.

set -eu
export LC_ALL=C
work=$(mktemp -d)
trap 'rm -rf "$work"' EXIT

# NAME: compiles a plain program of this folder.
compile() {
    "${CXX:-c++}" -O2 -std=c++17 -pthread -o "$work/$1" "$here/$1.cpp"
}

# FILE COLUMN: the median of a column.
median() {
    sort -n -k "$2,$2" "$1" | awk -v column="$2" '{ all[NR] = $column }
        END { print NR % 2 ? all[(NR + 1) / 2] : (all[NR / 2] + all[NR / 2 + 1]) / 2 }'
}

# The newest program that the launcher built. It proves and builds it if that is not done yet.
# Without words the program ends with 2.
built_program() {
    status=0
    "$here/../sched_tool" >/dev/null || status=$?
    [ "$status" -eq 2 ] && ls -t "$here"/../out/sched_tool-* | head -n 1
}

# CRATE..: copies crates of the repository, with those below them, into a repository of their own, in
# which programs of this folder are proved and built.
copy_crates() {
    for name in "$@"; do
        line=$(grep "^$name[ :]" "$here/../crates.txt") || continue
        [ ! -d "$work/crates/$name" ] || continue
        mkdir -p "$work/crates/$name"
        for part in src specs proofs; do
            if [ -d "$here/../crates/$name/$part" ]; then
                cp -R "$here/../crates/$name/$part" "$work/crates/$name"
            fi
        done
        echo "$line" >>"$work/crates.txt"
        copy_crates ${line#*:}
    done
}

# NAME LIBRARY..: adds a crate of this folder. Its files are kept with .txt behind their names, since
# each .rt file of the repository belongs to a crate.
add_crate() {
    cp -R "$here/$1" "$work/crates/$1"
    find "$work/crates/$1" -name '*.txt' | while read -r file; do
        mv "$file" "${file%.txt}"
    done
    name=$1
    shift
    echo "$name: $*" >>"$work/crates.txt"
}

# MODULE..: lets the main file of a copy of the program call these modules of `program`.
open_modules() {
    for name in "$@"; do
        sed -i "s/^mod $name;/pub mod $name;/" "$work/crates/sched_tool/src/program.rt"
    done
}

# NAME: proves and builds the program of a crate, runs it once, and prints where it is.
build() {
    echo "bench: proving and building $1, which can take minutes" >&2
    (cd "$work/crates/$1" && rt run) >"$work/build.log" 2>&1 </dev/null || {
        tail -n 20 "$work/build.log" >&2
        return 1
    }
    echo "$work/crates/$1/out/$1"
}
