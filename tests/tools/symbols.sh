# Part of tests/tools/run: urddolwy-symbols.
# shellcheck shell=bash disable=SC2154 # tests/tools/run sets what is not set here

# ---- a program with names that a list can have and others, and what nm prints of it

long=$(printf 'n%.0s' {1..127})
cat >one.c <<END
extern int outside(void);
int shared = 1, zeroed;
const int constant = 3;
static __attribute__((noinline, used)) int twice(int x) { return x * shared; }
int $long(int x) { return twice(x) + zeroed + constant; }
int ${long}n(int x) { return x + outside(); }
asm(".globl fixed\n.set fixed, 0x1234\n.globl again\n.set again, shared\n");
END
cat >two.c <<END
static __attribute__((noinline, used)) int twice(int x) { return x + 1; }
int A(int x) { return twice(x); }
int a(int x) { return twice(x) + 1; }
int aa(int x) { return twice(x) + 2; }
int _start(void) { return 0; }
END
for name in one two; do
    gcc -O2 -ffreestanding -fno-pic -mcmodel=large -fno-asynchronous-unwind-tables -fno-stack-protector -c $name.c ||
        broken "$name.c was not compiled"
done
ld -shared -z notext -Ttext=0xffff82d040200000 -o program one.o two.o 2>/dev/null || broken "the program was not linked"
nm program >map || broken "nm failed"
check 'nm prints an undefined symbol and an absolute one' test "$(grep -c -E ' (U outside|A fixed)$' map)" = 2

# What a list of the program should have, by other tools: the lines of nm that have a section, no name twice, none too long.
awk '$2 !~ /^[AaCcUwv]$/ && NF == 3 && length($3) < 128 { at[$3] = $1; n[$3]++ }
    END { for (name in at) if (n[name] == 1) print at[name], "?", name }' map | sort -k 3 >expected
wc_names=$(wc -l <expected)
bytes=$(awk '{ n += 9 + length($3) } END { print n + 7 }' expected)

left='names with more than one address: 1, left out
SOURCE: names of more than 127 bytes: 1, left out'
says 0 "by_nm: $wc_names names, $bytes bytes" "map: ${left/SOURCE/map}" -- "$symbols" --nm map --out by_nm
says 0 "by_elf: $wc_names names, $bytes bytes" "program: ${left/SOURCE/program}" -- "$symbols" --elf program --out by_elf
check 'the lists by nm and by ELF are the same' cmp by_nm by_elf
says 0 "$(cat expected)" -- "$symbols" --print by_nm
check 'there are names in the list' test "$wc_names" -ge 10
check 'it has the longest name' grep -q " $long\$" expected
check 'two names of one address are both kept' test "$(grep -c -E ' (again|shared)$' expected)" = 2

# ---- through print and back; the standard input

"$symbols" --print by_nm | "$symbols" --nm - --out back >said 2>&1
count 'print and back' "$(cmp by_nm back 2>&1)"
check 'the words of a list from the standard input' grep -qx "back: $wc_names names, $bytes bytes" said
count 'a list from the standard input is printed' "$("$symbols" --print - <by_nm 2>&1 | diff - expected)"

# Document 01's list of one name, and its neighbours.
printf '\0\0\0\x1d\x01\0\x01\xff\xff\x82\xd0\x80\x13\x96\x3c\x11xen_extra_version' >list
says 0 'ffff82d08013963c ? xen_extra_version' -- "$symbols" --print list
echo 'ffff82d08013963c T xen_extra_version' >line
says 0 'made: 1 name, 33 bytes' -- "$symbols" --strict --nm line --out made
check 'the list of document 01' cmp list made
printf '\0\0\0\x03\x01\0\0' >empty
says 0 '' -- "$symbols" --print empty
head -c 32 list >short_list
says 1 '' 'short_list: it is no symbol list' -- "$symbols" --print short_list
printf '\0\0\0\x0e\x01\0\x01\0\0\0\0\0\0\0\x01\x02\xc3\n' >odd
says 0 '0000000000000001 ? \xc3\x0a' -- "$symbols" --print odd

# ---- order and number of names

printf '%s\n' '0x2 t aa' '1 T a' '3 T A' '                 U u' '4 T a.1' '                 w w' '5 A abs' '6 C common' '' \
    'FFFFFFFFFFFFFFFF T z z' '1 t a' >lines
says 0 'made: 5 names, 62 bytes' -- "$symbols" --nm lines --out made
says 0 '0000000000000003 ? A
0000000000000001 ? a
0000000000000004 ? a.1
0000000000000002 ? aa
ffffffffffffffff ? z\x20z' -- "$symbols" --print made
seq 0 65534 | awk '{ printf "%x T n%d\n", $1, $1 }' >most
says 0 'made: 65535 names, 971922 bytes' -- "$symbols" --nm most --out made
echo '0 T one_more' >>most
rm -f none
says 1 '' 'most: it has more than 65,535 names, the most that a list can have' -- "$symbols" --nm most --out none

# ---- refused

says 1 '' "${long}n: more than 127 bytes
twice: more than one address
map: names with more than one address: 1
map: names of more than 127 bytes: 1" -- "$symbols" --strict --nm map --out none
for wrong in 'ffff82d08013963c xen_extra_version' 'ffff82d08013963c 0000000d T f' 'ffff82d08013963cT T f' \
    '0ffff82d08013963c T f' \
    'xen-syms:' ' T f' '0x T f' '0x U f' '0x0ffff82d08013963c T f' '1 T ' '1  T f' 'g T f' $'1 T f\r' $'1 T f\tfile.c:3'; do
    printf '1 T f\n\n%s\n' "$wrong" >lines
    says 1 '' 'lines: line 3 is not ADDRESS TYPE NAME' -- "$symbols" --nm lines --out none
done
: >lines
says 1 '' 'lines: it has no symbol for a list' -- "$symbols" --nm lines --out none
says 1 '' 'list: it is no 64-bit little-endian ELF file' -- "$symbols" --elf list --out none
says 1 '' 'one.o: it is not linked, so that its symbols have no addresses' -- "$symbols" --elf one.o --out none
strip -o stripped program
says 1 '' 'stripped: it has no symbol table' -- "$symbols" --elf stripped --out none
check 'a refusal writes no list' test ! -e none

# ---- files and usage

says 2 '' 'missing: No such file or directory' -- "$symbols" --nm missing --out none
says 2 '' '.: Is a directory' -- "$symbols" --print .
says 2 '' 'missing/list: No such file or directory' -- "$symbols" --nm line --out missing/list
no_room "$symbols" --print list
needed='one of --nm, --elf and --print is needed'
misused "$needed" "$symbols"
misused "$needed" "$symbols" --nm line --elf program --out none
misused "$needed" "$symbols" --strict --out none
misused '--out LIST is missing' "$symbols" --nm line
misused '--print takes no other option' "$symbols" --print list --strict
misused '--out needs a value' "$symbols" --nm line --out
misused '--nm is given twice' "$symbols" --nm line --nm line --out none
misused 'there is no option --help' "$symbols" --help
misused "'list' is one word too many" "$symbols" --print list list
