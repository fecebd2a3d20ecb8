# Part of tests/tools/run: what docs/payload-authors.md shows of both tools, for the payload that it makes.
# shellcheck shell=bash disable=SC2154 # tests/tools/run sets what is not set here

mkdir -p guide
accepted_sources guide || broken "the guide's sources were not made"
# shellcheck disable=SC1091
(
    set -eu
    cd guide
    . ./commands
) || broken "the guide's payload was not made"

# Runs the commands of a block, which stand after `$ `, and shows them with what they write.
replay() { # FILE
    grep '^\$ ' "$1" | while IFS= read -r line; do
        printf '%s\n' "$line"
        (cd guide && PATH=${audit%/*}:$PATH bash -c "${line#??}" 2>&1 </dev/null)
    done
}

# Holds a block against what its commands write now. The id depends on the compiler, and is left out.
shown() { # WORDS
    block "$1" | sed -e 's/^id:.*/id:/' -e '${/^$/d}' >commands
    check "there are commands after '$1'" grep -q '^\$ ' commands
    count "the guide after '$1'" "$(replay commands | sed 's/^id:.*/id:/' | diff commands -)"
}

shown 'A list of one name, and an audit'
shown 'A refusal'
# shellcheck disable=SC2016
block '`weak.c`, ' >guide/weak.c
shown 'Weak names that the list does not have'
