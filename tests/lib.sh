# shellcheck shell=bash disable=SC2034
# What the runs of the folders beside this file share. Each says, from its own folder: . "$(dirname "$0")/../lib.sh"
# It goes to the top of the repository, makes the temporary folder $room, and counts what is checked.
set -u
export LC_ALL=C # tests read what make and compilers say
ulimit -c 0     # some programs are to fault
here=$(cd "$(dirname "$0")" && pwd) || exit 2
cd "$here/../.." || exit 2
room=$(mktemp -d) || exit 2
trap 'rm -rf "$room"' EXIT

passed=0 failed=0
c_flags=(-std=c11 -Wall -Wextra -Werror -O2 -Iinclude)

pass() { printf 'passed: %s\n' "$*"; passed=$((passed + 1)); }
fail() { printf 'FAILED: %s\n' "$*"; failed=$((failed + 1)); }

# A check with a name: it passes if the command's status is 0.
check() { # NAME COMMAND [ARGUMENT..]
    local name=$1
    shift
    if "$@"; then pass "$name"; else fail "$name"; fi
}

# A command ends with status 0 and writes exactly a text, to standard output.
writes() { # TEXT COMMAND [ARGUMENT..]
    local text=$1
    shift
    "$@" >"$room/wrote" && diff "$text" "$room/wrote"
}

# A command refuses: this status, and a line on standard error that has these words.
refuses() { # STATUS WORDS COMMAND [ARGUMENT..]
    local status=$1 words=$2 was
    shift 2
    "$@" >"$room/wrote" 2>"$room/said"
    was=$?
    [ "$was" -eq "$status" ] && grep -qF -- "$words" "$room/said"
}

# The static library of a crate, built unless it is newer than every file of the crates. Without it the run ends here.
library() { # CRATE
    archive=target/staticlib/lib$1.a
    if ! make -s -C examples "../$archive"; then
        fail "the static library of $1 is built"
        finish
    fi
}

# A copy of the repository's crates in which other crates can be added or changed. What rt built here, of the crates named or of all, is
# not proved again there: rt holds it to the files' sums. Of what its checks kept here it begins there with what has not changed.
repository() { # FOLDER [CRATE..]
    local folder=$1 crate
    mkdir -p "$folder"
    tar c --exclude='crates/*/out' crates crates.txt | tar x -C "$folder"
    shift
    # shellcheck disable=SC2046
    [ $# -gt 0 ] || set -- $(ls crates)
    for crate; do
        [ -s "crates/$crate/out/rlib/stamp" ] || continue
        mkdir -p "$folder/crates/$crate/out"
        # rt makes such a file anew, and never writes into it
        cp -al "crates/$crate/out/rlib" "$folder/crates/$crate/out" 2>/dev/null ||
            cp -a "crates/$crate/out/rlib" "$folder/crates/$crate/out"
    done
}

finish() {
    printf '%d passed, %d failed\n' "$passed" "$failed"
    [ "$failed" -eq 0 ]
    exit
}
