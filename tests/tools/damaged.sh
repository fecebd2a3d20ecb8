# Part of tests/tools/run: both tools on damaged files. What they say of a payload is what examples/prepare.c says, whatever is
# wrong with it, and a checker of memory sees nothing.
# shellcheck shell=bash disable=SC2154 # tests/tools/run sets what is not set here

export ASAN_OPTIONS=exitcode=99 UBSAN_OPTIONS=exitcode=99
checked_audit=$out/checked/urddolwy-audit checked_symbols=$out/checked/urddolwy-symbols
RANDOM=1

# Audits a file: status and first line are those of the example.
audited() { # WHAT FILE
    local wrong='' status expected
    bounded "$checked_audit" "$2" names "${place[@]}" >said 2>errors
    status=$?
    "$out/prepare" "$2" names ffff82d080100000 200000 ffff82d0a0000000 >prepared
    expected=$?
    [ "$status" -eq "$expected" ] || wrong="status $status, and not $expected: $(head -c 300 errors)"
    [ ! -s errors ] || wrong="$wrong; on stderr: $(head -c 300 errors)"
    [ "$(head -n 1 said)" = "$2: $(sed '1s/^accepted:.*/accepted/;q' prepared)" ] || wrong="$wrong; it said: $(head -n 1 said)"
    count "$1" "$wrong"
}

# Runs urddolwy-symbols on a file: status 0 or 1.
listed() { # WHAT WORDS..
    local what=$1 wrong='' status
    shift
    bounded "$checked_symbols" "$@" >said 2>errors
    status=$?
    [ "$status" -le 1 ] || wrong="status $status: $(head -c 300 errors)"
    count "$what" "$wrong"
}

# A copy of a file with some bytes changed, half of them in the section table where it has one of an ELF file.
damage() { # FROM TO
    local size table times at byte
    size=$(stat -c %s "$1")
    table=$(readelf -h "$1" 2>/dev/null | awk '/Start of section headers/ { print $5 }')
    cp "$1" "$2"
    for ((times = 1 + RANDOM % 4; times > 0; times--)); do
        at=$(((RANDOM << 15 | RANDOM) % size))
        if [ -n "$table" ] && [ $((RANDOM % 2)) -eq 0 ]; then at=$((table + (size - table) * RANDOM / 32768)); fi
        printf -v byte '\\x%02x' $((RANDOM % 3 == 0 ? 255 : RANDOM % 64))
        # shellcheck disable=SC2059
        printf "$byte" | dd of="$2" bs=1 seek="$at" conv=notrunc status=none
    done
}

# So many pseudo-random bytes.
any_bytes() { # COUNT
    local n byte bytes=''
    for ((n = 0; n < $1; n++)); do
        printf -v byte '\\x%02x' $((RANDOM % 256))
        bytes+=$byte
    done
    # shellcheck disable=SC2059
    printf "$bytes"
}

for name in hello got unwind; do
    audited "$name" "$name"
done
for ((n = 0; n < $(stat -c %s hello); n += 61)); do
    head -c "$n" hello >bad
    audited "the first $n bytes" bad
    listed "the first $n bytes as ELF" --elf bad --out made
done
for ((n = 0; n < 80; n++)); do
    for name in hello calls fill; do
        damage $name bad
        audited "$name, damaged copy $n" bad
    done
    damage program bad
    listed "damaged ELF file $n" --elf bad --out made
    damage map bad
    listed "damaged lines $n" --nm bad --out made
    damage by_nm bad
    listed "damaged list $n" --print bad
done
for ((n = 0; n < 20; n++)); do
    any_bytes $((RANDOM % 2000)) >bad
    audited "random bytes $n" bad
    listed "random bytes $n as ELF" --elf bad --out made
    listed "random bytes $n as lines" --nm bad --out made
    listed "random bytes $n as a list" --print bad
done
