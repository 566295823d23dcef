#!/usr/bin/env bash
# Runs the built program where no contract reaches: real files, streams and words. Each case has the exact text of
# standard output and of standard error, and the exit status. The last line is `edges: N passed, M failed`.
cd "$(dirname "$0")/../crates/vmsa" || exit 1
program=$PWD/out/vmsa
image=$PWD/data/image
[ -x "$program" ] || rt run -- raw data/image 0x10 0x1000 0x40201abc >/dev/null || { echo "edges: the program could not be built"; exit 1; }
work=$(mktemp -d) || exit 1
trap 'rm -rf "$work"' EXIT
chmod 755 "$work"
cp "$program" "$work/vmsa" && chmod 755 "$work/vmsa" && cp "$image" "$work/image" && cd "$work" || exit 1
export LC_ALL=C
passed=0
failed=0
usage=$'usage: vmsa raw IMAGE TCR TTBR0 VA\nusage: vmsa explain REGS DUMP VA EL KIND [pan]\nusage: vmsa run TRACE\nusage: vmsa drill N\n'
read_fault=$'vmsa: read fault\n'

told() { # NAME IS_RIGHT
    if [ "$2" = yes ]; then passed=$((passed + 1)); else failed=$((failed + 1)); echo "failed: $1"; fi
}

# Compares a run's status and the files out and err with what is expected.
compare() { # NAME STATUS EXPECTED_STATUS EXPECTED_OUT EXPECTED_ERR
    printf '%s' "$4" >expected_out
    printf '%s' "$5" >expected_err
    if [ "$2" = "$3" ] && cmp -s out expected_out && cmp -s err expected_err; then
        told "$1" yes
    else
        told "$1" no
        echo "  status $2, expected $3"
        diff expected_out out
        diff expected_err err
    fi
}

runs() { # NAME STATUS OUT ERR WORD..
    local name=$1 status=$2 out=$3 err=$4
    shift 4
    timeout 20 ./vmsa "$@" >out 2>err
    compare "$name" $? "$status" "$out" "$err"
}

# A text of two lines and the last one.
absent() { # VA BASE PLACE
    printf 'access %s el1 read\ns1 base level %s\nabsent stage 1 level %s' "$1" "$2" "$3"
}
nothing_there() { # NAME FILE TCR TTBR0 VA "LEVEL at BASE" "LEVEL at PLACE"
    runs "$1" 0 "$(absent "$5" "$6" "$7")"$'\n' '' raw "$2" "$3" "$4" "$5"
}

mapped='access 0x40201abc el1 read
s1 base level 0 at 0x1000
s1 word level 0 at 0x1000 value 0x2003
s1 word level 1 at 0x2008 value 0x3003
s1 word level 2 at 0x3008 value 0x4003
s1 word level 3 at 0x4008 value 0x5403
mapped 0x5abc
'
zero='access 0x0 el1 read
s1 base level 0 at 0x0
s1 word level 0 at 0x0 value 0x0
fault stage 1 level 0 translation fsc 0x04
'

# Words.
runs 'the stored image' 0 "$mapped" '' raw image 0x10 0x1000 0x40201abc
runs 'no words' 2 '' "$usage"
runs 'an unknown command' 2 '' "$usage" walk image 0x10 0x1000 0x0
runs 'a word that is not UTF-8' 2 '' "$usage" raw image 0x10 0x1000 $'\xff'
runs 'a name that is not UTF-8' 2 '' "$usage" raw $'imag\xe9' 0x10 0x1000 0x0
runs 'an unsupported field' 4 '' $'vmsa: raw: unsupported TCR_EL1.DS\n' raw image 0x800000000000010 0x1000 0x0

# Words that memory is refused for: a limit at which the program starts, and its words don't fit.
if command -v prlimit >/dev/null; then
    words=()
    for _ in {1..15}; do words+=("$(printf 'a%.0s' {1..120000})"); done
    refused=no
    right=yes
    for limit in {40..90..5}; do
        prlimit --as="${limit}00000" ./vmsa "${words[@]}" >out 2>err
        case $? in
        7) refused=yes; [ -s out ] || [ -s err ] && right=no ;;
        2) [ "$(cat out err)"$'\n' = "$usage" ] || right=no ;;
        127) [ -s out ] && right=no ;;
        *) right=no ;;
        esac
    done
    [ $right = yes ] && told 'memory for the words is refused' $refused || told 'memory for the words is refused' no
else
    echo 'edges: no prlimit, so want of memory for the words was not tried'
fi

# Sizes.
: >empty
truncate -s 7 seven
truncate -s 8 eight
nothing_there 'a file of size 0' empty 0x10 0x0 0x0 '0 at 0x0' '0 at 0x0'
nothing_there 'a file of size 7' seven 0x10 0x0 0x0 '0 at 0x0' '0 at 0x0'
runs 'a file of size 8' 0 "$zero" '' raw eight 0x10 0x0 0x0
nothing_there 'behind a file of size 8' eight 0x10 0x0 0x8000000000 '0 at 0x0' '0 at 0x8'
if truncate -s 1099511627776 large 2>/dev/null; then
    runs 'the last word of a file of size 2^40' 0 'access 0xff8000000000 el1 read
s1 base level 0 at 0xfffffff000
s1 word level 0 at 0xfffffffff8 value 0x0
fault stage 1 level 0 translation fsc 0x04
' '' raw large 0x500000010 0xfffffff000 0xff8000000000
    nothing_there 'behind a file of size 2^40' large 0x500000010 0x10000000000 0x0 '0 at 0x10000000000' '0 at 0x10000000000'
else
    told 'a file of size 2^40 (this file system has none)' yes
fi

# Places.
nothing_there 'the place 2^32' image 0x500000010 0x100000000 0x0 '0 at 0x100000000' '0 at 0x100000000'
nothing_there 'the place 2^43' image 0x500000010 0x80000000000 0x0 '0 at 0x80000000000' '0 at 0x80000000000'
nothing_there 'the place 2^47' "$image" 0x500000010 0x800000000000 0x0 '0 at 0x800000000000' '0 at 0x800000000000'
nothing_there 'the place 2^52 - 8' image 0x600004016 0xffffffff003c 0x3ffe0000000 '2 at 0xfffffffff0000' '2 at 0xffffffffffff8'
truncate -s 5G sparse
printf '\x03\x20\0\0\0\0\0\0' | dd of=sparse bs=8 seek=536870912 conv=notrunc status=none
runs 'a word at the place 2^32' 0 'access 0x0 el1 read
s1 base level 0 at 0x100000000
s1 word level 0 at 0x100000000 value 0x2003
s1 word level 1 at 0x2000 value 0x0
fault stage 1 level 1 translation fsc 0x05
' '' raw sparse 0x500000010 0x100000000 0x0

# Names.
mkdir folder
name=$(printf 'a%.0s' {1..256})
runs 'a missing file' 3 '' $'vmsa: no file missing\n' raw missing 0x10 0x1000 0x0
runs 'a missing folder' 3 '' $'vmsa: no file missing/image\n' raw missing/image 0x10 0x1000 0x0
runs 'a name with a blank' 3 '' $'vmsa: no file a?b\n' raw 'a b' 0x10 0x1000 0x0
runs 'a long name that is missing' 3 '' "vmsa: no file ${name:0:64}"$'\n' raw "${name:0:255}" 0x10 0x1000 0x0
runs 'a name over 255 bytes' 5 '' "$read_fault" raw "$name" 0x10 0x1000 0x0
runs 'a name below a file' 5 '' "$read_fault" raw image/below 0x10 0x1000 0x0
runs 'a folder' 5 '' "$read_fault" raw folder 0x10 0x1000 0x0

# A file that may not be read. Root may read all.
install -m 000 image denied
if [ "$(id -u)" != 0 ]; then
    runs 'permission denied' 5 '' "$read_fault" raw denied 0x10 0x1000 0x40201abc
elif setpriv --reuid 65534 --regid 65534 --clear-groups true 2>/dev/null; then
    setpriv --reuid 65534 --regid 65534 --clear-groups ./vmsa raw denied 0x10 0x1000 0x40201abc >out 2>err
    compare 'permission denied' $? 5 '' "$read_fault"
else
    told 'permission denied: root may read every file, and there is no setpriv to be another user' no
fi

# Devices and pipes as files. A pipe is read to its end, up to 16 MiB.
runs 'a pipe as an image' 0 "$mapped" '' raw <(cat image) 0x10 0x1000 0x40201abc
nothing_there 'an empty pipe' <(:) 0x10 0x0 0x0 '0 at 0x0' '0 at 0x0'
nothing_there 'a pipe that closes early' <(head -c 4100 image) 0x10 0x1000 0x0 '0 at 0x1000' '0 at 0x1000'
runs 'a pipe of 16 MiB' 0 "$zero" '' raw <(head -c 16777216 /dev/zero) 0x10 0x0 0x0
runs 'a pipe of a byte more' 5 '' "$read_fault" raw <(head -c 16777217 /dev/zero) 0x10 0x0 0x0
runs 'a device without end' 0 "$zero" '' raw /dev/zero 0x10 0x0 0x0
nothing_there 'a device without bytes' /dev/null 0x10 0x0 0x0 '0 at 0x0' '0 at 0x0'

# Streams.
: >out; : >err
./vmsa raw image 0x10 0x1000 0x40201abc >/dev/full 2>err
compare 'standard output is full' $? 6 '' ''
: >out; : >err
./vmsa raw missing 0x10 0x1000 0x0 >out 2>/dev/full
compare 'standard error is full' $? 6 '' ''
: >out; : >err
./vmsa raw image 0x10 0x1000 0x40201abc >&- 2>err
compare 'standard output is closed' $? 6 '' ''
: >out; : >err
./vmsa raw missing 0x10 0x1000 0x0 >out 2>&-
compare 'standard error is closed' $? 6 '' ''
: >out; : >err
./vmsa raw image 0x10 0x1000 0x40201abc >out 2>&-
compare 'standard error is closed and not needed' $? 0 "$mapped" ''
: >out; : >err
mkfifo pipe
exec 3<>pipe 4>pipe 3>&-
./vmsa raw image 0x10 0x1000 0x40201abc >&4 2>err
compare 'a pipe that nobody reads' $? 6 '' ''
exec 4>&-

# Dumps. A core has a header, program headers of 56 bytes and what is put behind them.
bytes() { # NUMBER COUNT: the number's bytes, the lowest first
    local i text=
    for ((i = 0; i < $2; i++)); do text+=$(printf '\\x%02x' $((($1 >> (8 * i)) & 255))); done
    printf '%b' "$text"
}
head_of() { # TABLE ENTRY COUNT: the header of a core
    printf '\x7fELF\x02\x01\x01\0\0\0\0\0\0\0\0\0\x04\0\xb7\0'
    bytes 0 12
    bytes "$1" 8
    bytes 0 14
    bytes "$2" 2
    bytes "$3" 2
    bytes 0 6
}
segment() { # ADDRESS OFFSET SIZE: a program header that is loaded
    bytes 1 8
    bytes "$2" 8
    bytes 0 8
    bytes "$1" 8
    bytes "$3" 8
    bytes 0 16
}
word() { # FILE PLACE VALUE: puts a word into a file
    bytes "$3" 8 | dd of="$1" bs=1 seek=$(($2)) conv=notrunc status=none
}
registers() { # TTBR0: stage 1 with four levels of 4 KB
    printf 'sctlr_el1 = 1\ntcr_el1 = 0x500000010\nttbr0_el1 = %s\nttbr1_el1 = 0\nmair_el1 = 0\n' "$1"
}
first_lines() { # VA BASE: the first two lines of an answer
    printf 'access %s el1 read asid 0x0 vmid 0x0\ns1 base level 0 at %s\n' "$1" "$2"
}
explains() { # NAME STATUS OUT ERR DUMP BASE VA
    registers "$6" >regs
    runs "$1" "$2" "$3" "$4" explain regs "$5" "$7" el1 read
}
refused() { # NAME DUMP WHY
    explains "$1" 4 '' "vmsa: dump: $3"$'\n' "$2" 0 0
}
tables=$'s1 word level 0 at 0x1000 value 0x2003\ns1 word level 1 at 0x2008 value 0x3003
s1 word level 2 at 0x3008 value 0x4003\ns1 word level 3 at 0x4008 value 0x5403\nmapped 0x5abc el0 --x el1 rwx device-nGnRnE osh\n'
over_tables=$(first_lines 0x40201abc 0x1000)$'\n'$tables
{ head_of 64 56 1; segment 0 0xffc 0x5000; } >core
truncate -s $((0xffc)) core && cat "$image" >>core
explains 'a segment that begins in the middle of a word of the file' 0 "$over_tables" '' core 0x1000 0x40201abc
{ head_of 64 56 2; segment 0 0x1000 0x5000; segment 0x4000 0 0x78; } >overlap
truncate -s 4K overlap && cat "$image" >>overlap
explains 'two segments that overlap' 0 "$over_tables" '' overlap 0x1000 0x40201abc
{ head_of 64 56 2; segment 0x4000 0 0x78; segment 0 0x1000 0x5000; } >overlap
truncate -s 4K overlap && cat "$image" >>overlap
explains 'the first of them serves' 0 "$(first_lines 0x40201abc 0x1000)
$(head -n 3 <<<"$tables")
s1 word level 3 at 0x4008 value 0x0
fault stage 1 level 3 translation fsc 0x07
" '' overlap 0x1000 0x40201abc
explains 'an empty file' 4 '' $'vmsa: dump: not elf\n' empty 0 0
explains 'a folder' 5 '' "$read_fault" folder 0 0
explains 'a dump that is missing' 3 '' $'vmsa: no file a?b\n' $'a\tb' 0 0
head -c 63 core >short
refused 'a header of 63 bytes' short 'not elf'
printf 'makedumpfile    ' >kdump && truncate -s 4K kdump
refused 'a compressed dump' kdump 'not elf'
head_of 0xfffffffffffffff0 56 1 >bad
refused 'a table at the top of all numbers' bad 'bad table'
{ head_of 64 56 1; segment 0 0xffffffffffffffff 2; } >bad
refused 'a segment whose end wraps' bad 'segment 0 past end'
head_of 64 0 4097 >bad
refused 'a program header too many' bad 'too many segments'
{ head_of 64 55 1; segment 0 0 8; } >bad
refused 'program headers of 55 bytes' bad 'wrong entry size'
{ head_of 64 56 1; segment 0xfffffffffffffff8 0 16; } >top
explains 'a segment at the top of memory' 0 "$(first_lines 0x0 0x0)"$'\nabsent stage 1 level 0 at 0x0\n' '' top 0 0
{ head_of 64 56 1; segment 0x1000 64 7; } >seven
explains 'a segment of seven bytes' 0 "$(first_lines 0x0 0x1000)"$'\nabsent stage 1 level 0 at 0x1000\n' '' seven 0x1000 0
{ head_of 64 56 1; segment 0x1000 0x1000 0x1000; } >loop
truncate -s 8K loop && word loop 0x1000 0x1003
explains 'a table that points to itself' 0 "$(first_lines 0x0 0x1000)
$(printf 's1 word level %s at 0x1000 value 0x1003\n' 0 1 2 3)
fault stage 1 level 3 access-flag fsc 0x0b
" '' loop 0x1000 0
segment 0x8000 0x40000 8 >many
for _ in {1..12}; do cat many many >more && mv more many; done
{ head_of 64 56 4096; cat many; } >segments
truncate -s 260K segments && word segments 0x40000 0x0
explains '4,096 segments' 0 "$(first_lines 0x0 0x8000)
s1 word level 0 at 0x8000 value 0x0
fault stage 1 level 0 translation fsc 0x04
" '' segments 0x8000 0
if truncate -s 16T huge 2>/dev/null || truncate -s 15T huge 2>/dev/null; then
    end=$(($(stat -c %s huge) - 0x5000))
    { head_of 64 56 1; segment 0 $end 0x5000; } | dd of=huge conv=notrunc status=none
    dd if="$image" of=huge bs=4096 seek=$((end / 4096)) conv=notrunc status=none
    explains 'a sparse file of 16 TB' 0 "$over_tables" '' huge 0x1000 0x40201abc
    rm -f huge
else
    told 'a sparse file of 16 TB (this file system has none)' yes
fi
registers 0x1000 >regs
runs 'a pipe as a dump' 0 "$over_tables" '' explain regs <(cat core) 0x40201abc el1 read
runs 'a dump in a pipe that closes early' 4 '' $'vmsa: dump: bad table\n' explain regs <(head -c 100 core) 0 el1 read
runs 'an empty pipe as a dump' 4 '' $'vmsa: dump: not elf\n' explain regs <(:) 0 el1 read
runs 'more than 16 MiB in a pipe as a dump' 5 '' "$read_fault" explain regs <(cat core; head -c 16777216 /dev/zero) 0x40201abc el1 read
if truncate -s 5G far 2>/dev/null; then
    { head_of 64 56 1; segment 0 0x100000000 0x5000; } | dd of=far conv=notrunc status=none
    dd if="$image" of=far bs=4096 seek=$((0x100000)) conv=notrunc status=none
    explains 'a segment at the place 2^32 of a sparse dump' 0 "$over_tables" '' far 0x1000 0x40201abc
    rm -f far
else
    told 'a sparse dump of 5 GB' no
fi
short=/sys/kernel/mm/transparent_hugepage/enabled
if [ -r $short ] && [ "$(stat -c %s $short)" -gt 64 ]; then
    refused 'a file that has fewer bytes than it tells' $short 'not elf'
else
    echo 'edges: no file that has fewer bytes than it tells, so none was tried'
fi

# Register files.
runs 'registers that are missing' 3 '' $'vmsa: no file none\n' explain none core 0 el1 read
runs 'a folder as registers' 5 '' "$read_fault" explain folder core 0 el1 read
runs 'a pipe as registers' 0 "$over_tables" '' explain <(registers 0x1000) core 0x40201abc el1 read
runs 'pipes as registers and as a dump' 0 "$over_tables" '' explain <(registers 0x1000) <(cat core) 0x40201abc el1 read
runs 'an empty pipe as registers' 4 '' $'vmsa: registers: missing sctlr_el1\n' explain <(:) core 0 el1 read
runs 'registers in a pipe that closes early' 4 '' $'vmsa: registers: missing ttbr1_el1\n' explain <(registers 0 | head -n 3) core 0 el1 read
runs 'a pipe without end as registers' 4 '' $'vmsa: registers: too large\n' explain <(cat /dev/zero) core 0 el1 read
told_regs() { # NAME WHY: the file regs is refused
    runs "$1" 4 '' "vmsa: registers: $2"$'\n' explain regs core 0 el1 read
}
registers 0 >good
: >regs && told_regs 'no registers' 'missing sctlr_el1'
{ cat good; printf '# %065400d\n' 0; } >regs && truncate -s 65536 regs
told_regs '65,536 bytes, of which the last are 0' 'not toml'
truncate -s 65537 regs && told_regs '65,537 bytes' 'too large'
printf '\xff' >regs && told_regs 'a byte that is no UTF-8' 'not toml'
sed 's/^tcr_el1.*/tcr_el1 = -1/' good >regs && told_regs 'a value below 0' 'bad value tcr_el1'
sed 's/^tcr_el1.*/tcr_el1 = "0x"/' good >regs && told_regs 'a number without digits' 'bad value tcr_el1'
sed 's/^mair_el1.*/[mair_el1]/; /^sctlr_el1/d' good >regs && told_regs 'a missing key and a table' 'missing sctlr_el1'
{ cat good; printf '"vbar\\u0001é" = 0\n'; } >regs && told_regs 'a key that is not visible' 'unknown vbar???'
{ cat good; printf 'a'; printf '.a%.0s' {1..30000}; printf ' = 1\n'; } >regs && told_regs '60 KB of nested keys' 'not toml'
{ printf '['; printf '[%.0s' {1..60000}; } >regs && told_regs '60 KB of brackets' 'not toml'

# Traces.
header=$'cores 1\nmemory 0x0 0x10000\ncaches none\npolicy fifo\n'
stores=$'store 0 0x1000 0x2003\nstore 0 0x2008 0x3003\nstore 0 0x3008 0x4003\nstore 0 0x4008 0x5403\n'
on=$'msr 0 TCR_EL1 0x500000010\nmsr 0 TTBR0_EL1 0x1000\nmsr 0 SCTLR_EL1 0x1\nisb 0\n'
summary() { # ACCESSES MAPPED FAULTED
    printf 'summary accesses %s prefetches 0 mapped %s faulted %s conflicts 0 old 0 stale 0 evicted 0' "$@"
}
none=$(summary 0 0 0)$'\n'
moment() { # STEP: the lines of an access at a step
    printf 'event %s core 0 access 0x40201abc el1 read asid 0x0 vmid 0x0\ns1 base level 0 at 0x1000 moment %s\n' "$1" "$1"
    head -n 4 <<<"$tables" | sed "s/\$/ moment $1/"
    tail -n 2 <<<"$tables" | head -n 1
}
told_trace() { # NAME WHY: the file trace is refused
    runs "$1" 4 '' "vmsa: trace: $2"$'\n' run trace
}
printf '%s%s%saccess 0 el1 read 0x40201abc\nend\n' "$header" "$stores" "$on" >trace
runs 'a trace' 0 "$(moment 8)"$'\n'"$(summary 1 1 0)"$'\n' '' run trace
sed 's/$/\r/' trace >lines
runs 'a trace with carriage returns' 0 "$(moment 8)"$'\n'"$(summary 1 1 0)"$'\n' '' run lines
runs 'a trace that is missing' 3 '' $'vmsa: no file none\n' run none
runs 'a folder as a trace' 5 '' "$read_fault" run folder
whole_trace="$(moment 8)"$'\n'"$(summary 1 1 0)"$'\n'
runs 'a pipe as a trace' 0 "$whole_trace" '' run <(cat trace)
runs 'a trace in a pipe that is written slowly' 0 "$whole_trace" '' run <(head -n 5 trace; sleep 0.2; tail -n +6 trace)
runs 'a trace on standard input, from a pipe' 0 "$whole_trace" '' run /dev/stdin < <(cat trace)
runs 'a trace on standard input, from a file' 0 "$whole_trace" '' run /dev/stdin <trace
mkfifo fifo
cat trace >fifo &
runs 'a FIFO as a trace' 0 "$whole_trace" '' run fifo
wait $!
runs 'an empty pipe as a trace' 4 '' $'vmsa: trace: no header\n' run <(:)
runs 'a trace in a pipe that closes early' 4 '' $'vmsa: trace: no end\n' run <(head -n 5 trace)
runs 'a pipe without end as a trace' 4 '' $'vmsa: trace: too large\n' run <(cat /dev/zero)
runs 'a device without bytes as a trace' 4 '' $'vmsa: trace: no header\n' run /dev/null
runs 'a device without end as a trace' 4 '' $'vmsa: trace: too large\n' run /dev/zero
[ -e large ] && runs 'a trace of 2^40 bytes' 4 '' $'vmsa: trace: too large\n' run large
{ printf '%send\n' "$header"; yes "$(printf '%0199d' 0 | tr 0 '#')" | head -c 16777216; } | head -c 16777216 >trace
runs 'a trace of 16 MiB' 0 "$none" '' run trace
runs 'a trace of 16 MiB in a pipe' 0 "$none" '' run <(cat trace)
printf '#' >>trace && told_trace 'a byte more' 'too large'
runs 'a byte more in a pipe' 4 '' $'vmsa: trace: too large\n' run <(cat trace)
printf '%send' "$header" >trace
runs 'a last line without its end' 0 "$none" '' run trace
printf '%s\0\nend\n' "$header" >trace && told_trace 'a byte 0' 'line 5: not text'
printf '%s# \xc3\xa9\nend\n' "$header" >trace && told_trace 'a letter that is not ASCII' 'line 5: not text'
printf '%s# %0199d\nend\n' "$header" 0 >trace && told_trace 'a line of 201 bytes' 'line 5: long line'
{ printf '%s' "$header"; yes 'isb 0' | head -n 50001; echo end; } >trace && told_trace '50,001 events' 'line 50005: too many'
{ printf '%s%s%s' "$header" "$stores" "$on"; yes 'access 0 el1 read 0x40201abc' | head -n 49992; echo end; } >trace
./vmsa run trace >out 2>err
told 'a report of 50,000 events' \
    "$([ $? = 0 ] && [ ! -s err ] && [ "$(wc -l <out)" = 349945 ] && [ "$(tail -n 1 out)" = "$(summary 49992 49992 0)" ] && echo yes)"
cp out whole
: >err
./vmsa run trace 2>err | cat >out
compare 'the same through a pipe' "${PIPESTATUS[0]}" 0 "$(cat whole)"$'\n' ''
: >err
./vmsa run trace 2>err | head -n 1 >out
compare 'a pipe that is closed after a line' "${PIPESTATUS[0]}" 6 "$(head -n 1 whole)"$'\n' ''
: >out; : >err
./vmsa run trace >/dev/full 2>err
compare 'a report and standard output is full' $? 6 '' ''
if command -v prlimit >/dev/null; then
    right=yes
    refused=no
    for limit in {4..160..12}; do
        prlimit --as="${limit}000000" ./vmsa run trace >out 2>err
        case $? in
        0) cmp -s out whole && [ ! -s err ] || right=no ;;
        7) refused=yes; [ ! -s out ] && [ "$(cat err)" = 'vmsa: out of memory' ] || right=no ;;
        126 | 127) [ ! -s out ] || right=no ;;
        *) right=no ;;
        esac
    done
    [ $right = yes ] && told 'memory for a run is refused' $refused || told 'memory for a run is refused' no
else
    echo 'edges: no prlimit, so want of memory for a run was not tried'
fi

# Limits of a run: an inbox and a queue have room for 64, and the oldest goes where one more comes.
read=$'access 0 el1 read 0x40201abc\n'
ends_with() { # NAME LINES: the run of the file trace ends with these lines
    timeout 20 ./vmsa run trace >out 2>err
    told "$1" "$([ $? = 0 ] && [ ! -s err ] && [ "$(tail -n "$(wc -l <<<"$2")" out)" = "$2" ] && echo yes)"
}
full_inbox() { # MESSAGES: a page whose descriptor goes, its invalidation, and so many others
    printf '%s%s%s%sstore 0 0x4008 0x0\ntlbi 0 el1 VAE1 0x40201\n' "${header/none/small}" "$stores" "$on" "$read"
    yes 'tlbi 0 el1 VAE1 0x1' | head -n "$1"
    printf '%send\n' "$read"
}
full_inbox 63 >trace
ends_with 'an inbox of 64' 'mapped 0x5abc el0 --x el1 rwx device-nGnRnE osh
summary accesses 2 prefetches 0 mapped 2 faulted 0 conflicts 0 old 1 stale 1 evicted 0'
full_inbox 64 >trace
ends_with 'a full inbox' 's1 word level 3 at 0x4008 value 0x0 moment 75
fault stage 1 level 3 translation fsc 0x07
summary accesses 2 prefetches 0 mapped 1 faulted 1 conflicts 0 old 0 stale 0 evicted 0'
full_queue() { # WRITES: a write of a base that waits, and so many others
    printf '%s%s%smsr 0 TTBR0_EL1 0x6000\n' "$header" "$stores" "$on"
    yes 'msr 0 MAIR_EL1 0x0' | head -n "$1"
    printf '%send\n' "$read"
}
full_queue 63 >trace
ends_with 'a queue of 64' 'mapped 0x5abc el0 --x el1 rwx device-nGnRnE osh
summary accesses 1 prefetches 0 mapped 1 faulted 0 conflicts 0 old 0 stale 0 evicted 0'
full_queue 64 >trace
ends_with 'a full queue' 's1 base level 0 at 0x6000 moment 73
s1 word level 0 at 0x6000 value 0x0 moment 73
fault stage 1 level 0 translation fsc 0x04
summary accesses 1 prefetches 0 mapped 0 faulted 1 conflicts 0 old 0 stale 0 evicted 0'
{ printf 'cores 8\nmemory 0x0 0x1000\ncaches large\npolicy lru\n'; yes 'tlbi 0 el2 ALLE1IS' | head -n 50000; echo end; } >trace
ends_with '400,000 messages' "$(summary 0 0 0)"

# The drill, against a run of its trace, which is made here once more.
drill_trace() { # N
    local x=$1 i j c page event
    printf 'cores 4\nmemory 0x0 0x200000\ncaches small\npolicy fifo\nstore 0 0x1000 0x2003\nstore 0 0x2008 0x3003\n'
    for i in {0..3}; do printf 'store 0 %d %d\n' $((0x3000 + 8 * i)) $((0x4003 + 0x1000 * i)); done
    for i in {0..3}; do
        for j in {0..15}; do
            printf 'store 0 %d %d\n' $((0x4000 + 0x1000 * i + 8 * j)) $((0x100000 + 0x1000 * (16 * i + j) + (j % 2 ? 0xc03 : 0x403)))
        done
    done
    for c in {0..3}; do
        printf 'msr %d TCR_EL1 0x10\nmsr %d TTBR0_EL1 %d\nmsr %d SCTLR_EL1 0x1\nisb %d\n' $c $c $((0x1000 + ((c + 1) << 48))) $c $c
    done
    draw() { x=$((x * 6364136223846793005 + 1442695040888963407)); drawn=$(((x >> 33 & 0x7fffffff) % $1)); }
    for event in {1..20000}; do
        draw 16; local turn=$drawn
        draw 4; c=$drawn
        draw 4; i=$drawn
        draw 16; j=$drawn
        page=$((0x40000000 + 0x200000 * i + 0x1000 * j))
        case $turn in
        10) echo "prefetch $c el1 read $page" ;;
        11) echo "store $c $((0x4000 + 0x1000 * i + 8 * j)) $((0x100000 + 0x1000 * (16 * j + i) + 0x403))" ;;
        12) echo "tlbi $c el1 VAAE1IS $((page / 4096))" ;;
        13) echo "dsb $c ish" ;;
        14) echo "deliver $c" ;;
        15) echo "tlbi $c el1 VMALLE1" ;;
        *) echo "access $c el1 read $page" ;;
        esac
    done
    echo end
}
for start in 0 1 0x1 18446744073709551615; do
    drill_trace $start >trace
    ./vmsa run trace >out 2>err
    told "the trace of drill $start" "$([ $? = 0 ] && [ ! -s err ] && [ "$(wc -l <trace)" = 20091 ] && echo yes)"
    runs "drill $start" 0 "$(tail -n 1 out)"$'\n' '' drill $start
done
runs 'a drill without a number' 2 '' "$usage" drill
runs 'a drill of a number too large' 2 '' "$usage" drill 18446744073709551616
runs 'a drill of two words' 2 '' "$usage" drill 1 1
: >out; : >err
./vmsa drill 1 >/dev/full 2>err
compare 'a drill and standard output is full' $? 6 '' ''

echo "edges: $passed passed, $failed failed"
[ "$failed" = 0 ]
