#!/usr/bin/env bash
# Makes a payload with gcc, as docs/payload-authors.md says, and prints a console script that uploads, applies and reverts it:
#
#   examples/console.sh | ./run -
#
# It needs gcc and binutils, and target/bin/urddolwy-symbols, which ./build writes. docs/console.md goes through it.
set -eu -o pipefail
symbols=$(cd "$(dirname "${BASH_SOURCE[0]}")/.." && pwd)/target/bin/urddolwy-symbols
room=$(mktemp -d)
trap 'rm -rf "$room"' EXIT
cd "$room"

# ---- the hypervisor: its build-id, where the function stands that is changed and how long it is, text around it, payload memory

build_id=0123456789abcdef0123456789abcdef01234567
function=xen_extra_version address=ffff82d08013963c old_size=13
text=ffff82d080130000 text_size=65536 arena=ffff82d0a0000000 cpus=2

# ---- the payload

cat >hello.c <<'END'
#pragma GCC visibility push(hidden)
#include <stdint.h>

struct livepatch_func {
    const char *name;
    void *new_addr;
    void *old_addr;
    uint32_t new_size;
    uint32_t old_size;
    uint8_t version;
    uint8_t opaque[31];
};

const char *xen_hello_world(void)
{
    return "Hello World";
}

__attribute__((section(".livepatch.funcs"), used))
static struct livepatch_func funcs[] = {
    {.name = NAME, .new_addr = xen_hello_world, .new_size = NEW_SIZE, .old_size = OLD_SIZE, .version = 1},
};
END
cat >depends.S <<END
    .section .livepatch.depends, "a", @note
    .balign 4
    .long 4, 2f - 1f, 3
    .asciz "GNU"
1:  .byte $(sed 's/../, 0x&/g; s/^, //' <<<"$build_id")
2:  .balign 4
    .section .note.GNU-stack, "", @progbits
END
compile() { # NEW_SIZE
    gcc -O2 -ffreestanding -fPIE -fno-asynchronous-unwind-tables -fcf-protection=none -fno-stack-protector -fno-common \
        -DNAME="\"$function\"" -DNEW_SIZE="$1" -DOLD_SIZE="$old_size" -c hello.c -o hello.o
}
compile 1
compile "$(readelf -sW hello.o | awk '$8 == "xen_hello_world" { print $3 }')"
gcc -c depends.S -o depends.o
id=$(cat hello.o depends.o | sha1sum | cut -c 1-40)
ld -r --build-id="0x$id" -o hello.payload hello.o depends.o

# ---- the symbol list

echo "$address T $function" | "$symbols" --nm - --out list >&2

# ---- the script: bytes in hexadecimal, 64 digits to a line; addresses in decimal

hex() { # FILE
    od -An -v -tx1 -w32 "$1" | tr -d ' '
}
printf 'start %u %u %u %u %s\n' "0x$text" "$text_size" "0x$arena" "$cpus" "$build_id"
printf 'upload hello %s\n' "$(hex list | tr -d '\n')"
hex hello.payload
cat <<'END'
end
act hello 3 0
report 0
report 1
work
get hello
act hello 2 0
report 0
report 1
work
list
act hello 1 0
list
END
