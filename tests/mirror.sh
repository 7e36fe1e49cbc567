# shellcheck shell=bash disable=SC2034,SC2154
# For tests and benchmarks that take PostgreSQL from Debian's package mirror, which is unpacked in the folder "$room" and not installed.
releases=(17 16 15 14 13) # the first one that the mirror has is taken

# A program of apt with lists and packages of its own, as any user.
mirror() { # PROGRAM ARGUMENT..
    timeout 150 "$1" -o Dir::State::lists="$room/lists" -o Dir::Cache="$room/cache" -o APT::Sandbox::User=root -o Debug::NoLocking=1 \
        -o Acquire::Retries=2 -o Acquire::http::Timeout=20 -o Acquire::https::Timeout=20 "${@:2}"
}

# The mirror's lists; another source of packages may be out of reach.
fetch_lists() {
    mkdir -p "$room/lists/partial" "$room/cache/archives/partial" && { mirror apt-get -qq update || true; }
}
