# Part of tests/tools/run: urddolwy-audit on payloads.
# shellcheck shell=bash disable=SC2154 # tests/tools/run sets what is not set here

flags=(-O2 -ffreestanding -fPIE -fno-asynchronous-unwind-tables -fcf-protection=none -fno-stack-protector -fno-common)

# Compiles a source of tests/objects, or of this folder, and links it as a payload.
payload() { # NAME SOURCE [WORDS FOR GCC..]
    local name=$1 source=$2
    shift 2
    [ -e "$source" ] || source=$sources/$source
    gcc "${flags[@]}" "$@" -c "$source" -o "$name.o" || broken "$source was not compiled"
    ld -r --build-id=0x1122334455667788 -o "$name" "$name.o" depends.o || broken "$name was not linked"
}

# The index of a payload's section, by name.
section() { # PAYLOAD NAME
    readelf -SW "$1" | sed 's/\[ */[/' | awk -v name="$2" '$2 == name { gsub(/[][]/, "", $1); print $1; exit }'
}

for name in depends notes; do
    gcc -c "$sources/$name.S" || broken "$name.S was not compiled"
done
payload hello hello.c
payload calls calls.c
payload fill fill.S
ld -r -T "$sources/payload.lds" -o first hello.o notes.o || broken "first was not made"
printf '%s\n' 'ffff82d080104a6a T do_domctl' 'ffff82d080310008 D jiffies' 'ffff82d080130000 T memcpy_from' \
    'ffff82d08015fbb9 T printk' 'ffff82d08013963c T xen_extra_version' >outside
"$symbols" --nm outside --out names >said || broken "the list of names was not made"
head -n 1 outside | "$symbols" --nm - --out domctl >said || broken "the list of one name was not made"
text=0xffff82d080100000:0x200000 slot=0xffff82d0a0000000
place=(--text "$text" --slot "$slot")

# ---- accepted: all that is said of document 01's first jump, K1, in numbers of both forms

says 0 "first: accepted
id:$(printf ' 5a%.0s' {1..63}) a5
depends on: 77
placed: 232 bytes, the sections by this tool's own sums, after document 01's rule
  0xffff82d0801a0000     8 bytes: section 1 .text
  0xffff82d0801a0008    12 bytes: section 3 .rodata
  0xffff82d0801a0020    18 bytes: section 4 .data
  0xffff82d0801a0032     0 bytes: section 5 .bss
  0xffff82d0801a0040    64 bytes: section 6 .livepatch.funcs
  0xffff82d0801a0080    20 bytes: section 8 .livepatch.depends
  0xffff82d0801a0098    80 bytes: section 9 .note.gnu.build-id
edits: 1
  edit 0: 5 bytes at 0xffff82d08013963c, a jump to 0xffff82d0801a0000
    record 0: name xen_extra_version, new_addr xen_hello_world, old_addr 0x0, new_size 8, old_size 13, version 1
    ffff82d08013963c: e9 bf 69 06 00" -- \
    "$audit" --slot 0xffff82d0801a0000 first --text 18446606430746181632:655360 list

# Against the library itself, by two programs of other makes: ids and edits, and the slot's bytes.
for name in hello calls fill first; do
    rm -f image edit.*
    check "$name is accepted" "$audit" $name names "${place[@]}" --image image --objdump edit
    cp "$out/check" report
    "$out/prepare" $name names ffff82d080100000 200000 ffff82d0a0000000 >prepared
    count "$name: ids and edits" "$(diff <(sed -n -E 's/^(id|depends on) /\1: /p; s/^edit at /    /p' prepared) \
        <(grep -E '^(id|depends on):|^    [0-9a-f]+:' report))"
    "$out/image" $name names 0xffff82d080100000 0x200000 0xffff82d0a0000000 >expected
    check "$name: the slot's bytes" cmp image expected
    # a section that no relocation changes stands where the report has it, and the last one ends the placed bytes
    read -r address size _ < <(grep ' .livepatch.depends$' report)
    objcopy -O binary --only-section=.livepatch.depends $name depends.bin
    tail -c +$((address - slot + 1)) image | head -c "$size" >placed.bin
    check "$name: .livepatch.depends at its address" cmp depends.bin placed.bin
    read -r address size _ < <(grep -E '^  0x[0-9a-f]{16} ' report | tail -n 1)
    check "$name: the last section ends the placed bytes" grep -q "^placed: $((address - slot + size)) bytes" report
    # the commands for a disassembler, as printed
    count "$name: every edit has its file" "$(diff <(grep -c '^  edit' report) <(find . -name 'edit.*' | wc -l))"
    grep -o 'objdump .*edit.*' report | sh >code
    count "$name: the jumps that objdump shows" "$(diff <(grep -o 'jump to .*' report | sed 's/jump to //') \
        <(grep -o 'jmp .*' code | sed 's/jmp *//'))"
done
check 'the slot is disassembled' grep -q "ffff82d0a0000000:.*" <(grep 'objdump.*image' report | sh)
check "a file's name with a quote" "$audit" hello names "${place[@]}" --objdump "it's"
check 'its command' test "$(grep -o 'objdump .*' "$out/check" | sh | grep -c 'jmp ')" = 1

# ---- refused: the answer, the rule group, and what stands at the place

# A refusal and what is said of it; the text begins after the name.
refused() { # TEXT PAYLOAD LIST [OTHER WORDS..]
    local text=$1 name=$2 list=$3
    shift 3
    [ $# -gt 0 ] || set -- "${place[@]}"
    rm -f image
    says 1 "$name: $text" -- "$audit" "$name" "$list" "$@" --image image --objdump image
    check "no file is written for $name" test ! -e image -a ! -e image.0
}

unlisted='3 not listed: a used symbol that is not weak, or a function name, is not in the list'
invalid='22 invalid: every other broken rule'
unsupported='95 unsupported: an unknown section type, flag, kind, relocation type or symbol index'
range='34 out of range: a 4-byte value out of range'
alone='  the file alone: accepted' same='  the file alone: refused for the same'
record='record 0: name xen_extra_version, new_addr xen_hello_world, old_addr 0x0, new_size 8, old_size'

refused "refused with 3 at record 0: the function that it names is not in the symbol list
  $unlisted
$alone
  $record 13, version 1" hello empty
refused "refused with 22 at record 0: it breaks a rule
  $invalid
$alone
  $record 13, version 1" hello names --text 0xffff82d080100000:4096 --slot "$slot"
payload short hello.c -DOLD_SIZE=4
refused "refused with 22 at record 0: it breaks a rule
  $invalid
$alone
  $record 4, version 1" short names
refused "refused with 34 at record 0: its jump does not reach
  $range
$alone
  $record 13, version 1" hello names --text "$text" --slot 4096

# Records by symbols with a value, with an addend, and with no string to read.
cat >records.c <<'END'
#include "livepatch.h"
char one[] = "do_domctl", two[] = "printk", nothing[16];
APART int f(int x) { return x + 1; }
RECORDS = {
    {.version = 1, .name = one, .new_size = 1, .old_size = 1},
    {.version = 1, .name = two, .new_addr = (char *)f + 3, .new_size = 1, .old_size = 5},
    {.version = 2, .name = nothing + 8, .old_addr = (void *)0x1234, .new_size = 7, .old_size = 9},
};
END
payload records records.c -I"$sources"
refused "refused with 22 at record 2: it breaks a rule
  $invalid
$alone
  record 2: name nothing+8, new_addr 0x0, old_addr 0x1234, new_size 7, old_size 9, version 2" records names
refused "refused with 3 at record 1: the function that it names is not in the symbol list
  $unlisted
$alone
  record 1: name printk, new_addr f+3, old_addr 0x0, new_size 1, old_size 5, version 1" records domctl
refused "refused with 3 at record 0: the function that it names is not in the symbol list
  $unlisted
$alone
  record 0: name do_domctl, new_addr 0x0, old_addr 0x0, new_size 1, old_size 1, version 1" records empty

# The lines of a section and of an entry; the symbol's number is left to readelf.
rela=$(section calls .rela.text) number=$(readelf -sW calls | awk '$8 == "printk" { print $1 + 0 }')
size=$((16#$(readelf -SW calls | sed 's/\[ *//' | awk '$2 == ".rela.text" { print $6 }')))
lines=$(readelf -rW calls | awk '/^Relocation/ { t = $3 } t == "'"'.rela.text'"'" && /R_X86/ { print $1, $3, $5 }')
at=$(grep -n ' printk$' <<<"$lines" | head -n 1)
read -r offset type _ <<<"${at#*:}"
entry=$((${at%%:*} - 1)) offset=$(printf 0x%x $((16#$offset))) type_number=$([ "$type" = R_X86_64_PC32 ] && echo 2 || echo 4)
refused "refused with 3 at entry $entry of section $rela (.rela.text), symbol printk: its symbol is not in the symbol list
  $unlisted
$alone
  section $rela .rela.text: type 4 (RELA), flags 0x40, alignment 8, size $size, of section $(section calls .text) .text
  entry $entry: type $type_number ($type), offset $offset, symbol $number printk (undefined), addend -4" calls empty

echo 'extern unsigned long jiffies; unsigned long now(void) { return jiffies; }' >got.c
gcc "${flags[@]}" -fPIC -c got.c || broken "got.c was not compiled"
ld -r --build-id=0x01020304 -o got got.o hello.o depends.o || broken "got was not linked"
rela=$(section got .rela.text) number=$(readelf -sW got | awk '$8 == "jiffies" { print $1 + 0 }')
refused "refused with 95 at entry 0 of section $rela (.rela.text), symbol jiffies: its type or its symbol's section is not known
  $unsupported
$alone
  section $rela .rela.text: type 4 (RELA), flags 0x40, alignment 8, size 48, of section $(section got .text) .text
  entry 0: type 42 (R_X86_64_REX_GOTPCRELX), offset 0x3, symbol $number jiffies (undefined), addend -4" got names

payload far bounds.S -DTYPE=4
echo '1000 T near' >lines && "$symbols" --nm lines --out near >said
rela=$(section far .rela.text) number=$(readelf -sW far | awk '$8 == "near" { print $1 + 0 }')
refused "refused with 34 at entry 0 of section $rela (.rela.text), symbol near: its value does not fit into 4 bytes
  $range
$alone
  section $rela .rela.text: type 4 (RELA), flags 0x40, alignment 8, size 24, of section $(section far .text) .text
  entry 0: type 4 (R_X86_64_PLT32), offset 0x4, symbol $number near (undefined), addend -4" far near

# A weak name that is missing is 0: far from a field of 4 bytes, and stored in one of 8.
payload weak bounds.S -DTYPE=4 -DBINDING=.weak
rela=$(section weak .rela.text) number=$(readelf -sW weak | awk '$8 == "near" { print $1 + 0 }')
refused "refused with 34 at entry 0 of section $rela (.rela.text), symbol near: its value does not fit into 4 bytes
  $range
$alone
  section $rela .rela.text: type 4 (RELA), flags 0x40, alignment 8, size 24, of section $(section weak .text) .text
  entry 0: type 4 (R_X86_64_PLT32), offset 0x4, symbol $number near (undefined, weak), addend -4" weak empty
payload weak_address bounds.S -DTYPE=1 -DBINDING=.weak
check 'a weak name that is missing, by its address' "$audit" weak_address empty "${place[@]}"

payload unwind hello.c -fasynchronous-unwind-tables
frame=$(section unwind .eh_frame)
size=$((16#$(readelf -SW unwind | sed 's/\[ *//' | awk '$2 == ".eh_frame" { print $6 }')))
refused "refused with 95 at section $frame (.eh_frame): its type, flags or name are not known
  $unsupported
$same
  section $frame .eh_frame: type 1 (PROGBITS), flags 0x2, alignment 8, size $size" unwind names
echo '#include "hello.c"
static char room[8193] __attribute__((used));' >room.c
payload room room.c -I"$sources"
bss=$(section room .bss)
refused "refused with 12 at section $bss (.bss): with it, more than 8,192 bytes are to be placed
  12 no room: placed bytes over 8,192
$alone
  section $bss .bss: type 8 (NOBITS), flags 0x3, alignment 32, size 8193" room names
ld -r --build-id=0x0102 -o unpadded hello.o depends.o
refused "refused with 22 at section 1 (.note.gnu.build-id): it breaks a rule
  $invalid
$same
  section 1 .note.gnu.build-id: type 7 (NOTE), flags 0x2, alignment 4, size 18" unpadded names
ld -r --build-id=0x01020304 -o alone hello.o
refused "refused with 22: the name table or a section that there must be once is missing, or there twice
  $invalid
$same" alone names
header='refused with 8: the file has not the size or the header of a payload'
head -c 1000 hello >half
refused "$header
  8 bad header: file size or header
$same" half names
refused "refused with 22: half is no symbol list
  $invalid
  the file alone: $header" half half
refused "refused with 22: there can be no such text, or no such slot
  $invalid
$alone" hello names --text 0xffff82d080100000:16777217 --slot "$slot"

# ---- files and usage

says 2 '' 'missing: No such file or directory' -- "$audit" missing names "${place[@]}"
says 2 '' 'missing: No such file or directory' -- "$audit" hello missing "${place[@]}"
says 2 '' '.: Is a directory' -- "$audit" . names "${place[@]}"
says 2 '' 'missing/image: No such file or directory' -- "$audit" hello names "${place[@]}" --image missing/image
says 2 '' 'missing/edit.0: No such file or directory' -- "$audit" hello names "${place[@]}" --objdump missing/edit
says 2 '' '/dev/full: No space left on device' -- "$audit" hello names "${place[@]}" --image /dev/full
no_room "$audit" hello names "${place[@]}"
misused 'PAYLOAD or SYMBOLS is missing' "$audit"
misused 'PAYLOAD or SYMBOLS is missing' "$audit" hello "${place[@]}"
misused "'names' is one word too many" "$audit" hello names names "${place[@]}"
misused '--text BASE:SIZE is missing' "$audit" hello names --slot 4096
misused '--slot BASE is missing' "$audit" hello names --text 1:1
misused '--slot needs a value' "$audit" hello names --text 1:1 --slot
misused '--slot is given twice' "$audit" hello names --slot 4096 --slot 4096
misused 'there is no option -o' "$audit" hello names -o image
for word in '' ' 1' -1 +1 1g 0x x 1: 18446744073709551616 0x10000000000000000; do
    misused "--slot is '$word', and no number of 64 bits" "$audit" hello names --text 1:1 --slot "$word"
done
for word in '' : 1 1: :1 1:1:1 ' 1:1' '1: 1' -1:1 1:-1 0x:1 1:18446744073709551616; do
    misused "--text is '$word', and not two numbers of 64 bits as BASE:SIZE" "$audit" hello names --text "$word" --slot 4096
done
