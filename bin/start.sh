# What the scripts of this folder share; they set `here`, the folder.
root=${here%/*}

# A stream that is closed stays one that cannot be read or written, whatever is opened below.
true 2> /dev/null 8<&0 || exec 0> /dev/null
true 2> /dev/null 8>&1 || exec 1< /dev/null
true 8>&2 || exec 2< /dev/null

# Prints a help, or the version, which the Rust crate has, and ends.
help() {
    cat "$here/help/$1.txt" || exit 3
    exit 0
}

version() {
    sed -n 's/^version = "\(.*\)"$/pft \1/p' "$root/lang/rust/Cargo.toml" || exit 3
    exit 0
}

# Says what is wrong, where that is known, and how a command is used, which is the start of its help; and ends.
usage() { # HELP [REASON]
    test -z "${2:-}" || echo "${0##*/}: $2" >&2
    sed '/^$/,$d' "$here/help/$1.txt" >&2
    exit 2
}

# Says why a program cannot be run, and ends.
fail() {
    echo "${0##*/}: $1" >&2
    exit 2
}

# The crates that one stands on, itself among them, by crates.txt.
crates_of() {
    awk -v todo="$1" '
        { sub(/#.*/, "") }
        /:/ { name = $1; sub(/:.*/, "", name); sub(/[^:]*:/, ""); on[name] = $0 }
        END {
            while (n = split(todo, names)) {
                todo = ""
                for (i = 1; i <= n; i++) {
                    name = names[i]
                    if (!(name in on) || name in seen) continue
                    seen[name]
                    print name
                    todo = todo " " on[name]
                }
            }
        }' "$root/crates.txt"
}

# The first file or folder that is newer than another, among crates.txt and parts of the crates that one stands on.
newer() { # FILE CRATE PART...
    file=$1 crate=$2
    shift 2
    (
        cd "$root"
        paths=crates.txt
        for c in $(crates_of "$crate"); do
            for part; do test ! -d "crates/$c/$part" || paths="$paths crates/$c/$part"; done
        done
        find $paths -newer "$file" | head -n 1
    )
}

# Ends where the proved program of a crate is not made, or a source is newer than it.
need() { # CRATE COMMAND
    program=target/bin/$1
    test -x "$root/$program" || fail "it is not made yet. In $root: \`bin/make $1\` proves what it\
 stands on and makes it, in minutes; \`bin/pft --unproved $2\` does without proofs, in seconds"
    changed=$(newer "$program" "$1" src specs proofs)
    test -z "$changed" || fail "$changed is newer than $program. In $root: \`bin/make $1\` makes it anew"
}

# Runs a program, which leaves its exit status on descriptor 9 as a digit; its answers and messages go on as they are.
run() {
    ended=0
    exec 8>&1
    status=$("$@" 9>&1 >&8 8>&-) || ended=$?
    exec 8>&-
    case $status in
    [0-3]) ;;
    *) status=$((ended > 128 ? ended : 3)) ;;
    esac
}
