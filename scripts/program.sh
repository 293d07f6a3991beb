# shellcheck shell=sh
# What the scripts that run a program share; they source it with the program in `name` and the repository in `root`.
program=${root:?}/crates/${name:?}/out/$name

# How many crates of crates.txt the program needs, itself included.
needed() {
    awk -F: -v name="$name" '
        !/^ *#/ && NF > 1 { listed[$1]; needs[$1] = $2 }
        END {
            wanted[name]
            do {
                more = 0
                for (crate in wanted) {
                    m = split(needs[crate], below, " ")
                    for (i = 1; i <= m; i++)
                        if (below[i] in listed && !(below[i] in wanted)) { wanted[below[i]]; more = 1 }
                }
            } while (more)
            for (crate in wanted) count++
            print count
        }' "$root/crates.txt"
}

# Proves and builds the program: a line for each crate, and all else in target/NAME.log. `rt run` runs it too, once, on no input.
build() {
    log=$root/target/$name.log
    mkdir -p "$root/target"
    count=$(needed)
    echo "$name: the program isn't built yet; proving its $count crates, which takes some minutes" >&2
    { (cd "$root/crates/$name" && rt run </dev/null 2>&1 >/dev/null) && [ -x "$program" ] && echo "$name: built" || echo "$name: not proved"; } | tee "$log" |
        awk -v left="$count" -v name="$name" '/^rt: chose --jobs [0-9]+ for / { left--; print name ": proving " $NF ", at most " left " left"; fflush() }' >&2
    if [ "$(tail -n 1 "$log")" != "$name: built" ]; then
        echo "$name: a proof failed; the end of target/$name.log:" >&2
        tail -n 40 "$log" >&2
        exit 1
    fi
}

# Goes to the map's folder, once the program is there.
enter() {
    if [ ! -f "$1/n" ]; then
        echo "$name: no file $1/n" >&2
        exit 2
    fi
    if [ ! -x "$program" ]; then
        build
    fi
    cd "$1" || exit
}

# Runs the program on standard input, with these arguments, in place of the script.
run() {
    # The program is for x86-64. Elsewhere an emulator runs it, where there is one, with the C library of the toolchain.
    if [ "$(uname -m)" != x86_64 ] && command -v qemu-x86_64 >/dev/null; then
        lib=$(dirname "$(rt doc)")/toolchain/lib
        exec qemu-x86_64 "$lib/ld-linux-x86-64.so.2" --library-path "$lib" "$program" "$@"
    fi
    exec "$program" "$@"
}
