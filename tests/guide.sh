# Sourced by suites: the blocks of docs/payload-authors.md, which they run as they stand there. The caller sets `guide`, the path.
# shellcheck shell=bash disable=SC2154

# The first indented block after the line that begins with these words.
block() { # WORDS
    awk -v words="$1" '
        state == 0 && index($0, words) == 1 { state = 1; next }
        state == 1 && /^    / { state = 2 }
        state == 2 && /^[^ ]/ { exit }
        state == 2 { print substr($0, 5) }' "$guide"
}

# The sources of the payload that is accepted, and the commands that make it.
accepted_sources() { # FOLDER
    # shellcheck disable=SC2016
    block '`hello.c`, ' >"$1/hello.c"
    # shellcheck disable=SC2016
    block '`depends.S`, ' >"$1/depends.S"
    block 'The commands:' >"$1/commands"
}
