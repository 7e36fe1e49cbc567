# shellcheck shell=bash
# What the runs share that ask the prover itself. After lib.sh: . "$(dirname "$0")/../prover.sh"

# The kit's commands without rt's sharing of kept work among the checkouts of a machine: what is tried here is wrong on purpose, and no other
# checkout is to begin with it.
kit=$(dirname "$(rt doc)") || exit 2

# What a check of the prover came to, by its last line; with neither it could not tell.
proved() { tail -n 1 "$1" | grep -q '^logic=proved '; } # FILE
not_proved() { [ "$(tail -n 1 "$1")" = logic=not-proved ]; } # FILE

# Proves a crate of a repository, what it stands on first. What it says goes to FOLDER/crates/CRATE/said. A check that could not tell, as one
# that was killed for memory, is made once more, alone; what it said at first stays in said.first.
prove() { # FOLDER CRATE [JOBS]
    local said=$1/crates/$2/said
    checked "$1" "$2" "${3:-1}" || proved "$said" || not_proved "$said" || {
        mv "$said" "$said.first"
        checked "$1" "$2" 1
    }
}
checked() { (cd "$1/crates/$2" && python3 "$kit/bin/rtlib.py" check --jobs "$3" </dev/null >said 2>&1); }

# The errors of a check, one a line, without what only waits for a declaration that was refused.
errors() { # FILE
    grep -a ': error' "$1" | grep -av 'declarations\? that depends\? on .*, which was \(rejected\|not admitted\), .* not checked'
}
