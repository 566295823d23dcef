#!/usr/bin/env bash
# Compares the built program with QEMU on real systems. A guest runs there and is stopped, its memory is dumped and its
# registers are read; then `vmsa explain` and QEMU's monitor are asked for some hundred addresses where a read goes.
# The guests are U-Boot, a program of our own (guest.s, where an assembler is at hand) at EL1 without and with stage 2,
# and Linux where its image is named. This is no part of the gate: it needs packages of Debian, which it names where they
# are missing. The last line is `guest: N passed, M failed`.
# usage: guest.sh [PROGRAM [KERNEL [INITRD]]]; PROGRAM is otherwise the built one
scripts=$(cd "$(dirname "$0")" && pwd) || exit 1
firmware=/usr/lib/u-boot/qemu_arm64/u-boot.bin
say() { echo "guest: $*"; }
if ! command -v qemu-system-aarch64 >/dev/null || [ ! -r "$firmware" ]; then
    say 'packages are missing: apt-get install qemu-system-arm u-boot-qemu'
    exit 1
fi
program=$(realpath -m -- "${1:-$scripts/../crates/vmsa/out/vmsa}")
[ -x "$program" ] || { say "there is no program $program; (cd crates/vmsa && rt run) builds it"; exit 1; }
work=$(mktemp -d) || exit 1
qemu=
stop_qemu() {
    [ -n "$qemu" ] && kill "$qemu" 2>/dev/null && wait "$qemu" 2>/dev/null
    qemu=
}
trap 'stop_qemu; rm -rf "$work"' EXIT
trap 'exit 1' HUP INT TERM
trap '' PIPE
export LC_ALL=C
passed=0
failed=0
give_up() {
    say "$*"
    sed 's/^/  /' "$work/qemu.err" 2>/dev/null | tail -n 5
    exit 1
}

# One command of QEMU's machine protocol, which answers with a line; lines that tell of events stand between.
ask() { # COMMAND
    answer=
    { printf '%s\n' "$1" >&"$into"; } 2>/dev/null || return 1
    while read -r -t 60 answer <&"$from"; do
        case $answer in
        *'"return"'*) return 0 ;;
        *'"error"'*) return 1 ;;
        esac
    done
    return 1
}

# Starts QEMU without a screen and without network. Its gdb stub is the socket gdb, its serial line the file serial.
start() { # WORD..
    core=0
    : >"$work/serial"
    coproc QEMU {
        cd "$work" && exec qemu-system-aarch64 "$@" -display none -nic none -serial file:serial -qmp stdio \
            -gdb unix:gdb,server=on,wait=off 2>qemu.err
    }
    qemu=$!
    into=${QEMU[1]}
    from=${QEMU[0]}
    ask '{"execute": "qmp_capabilities"}' || give_up 'QEMU did not start'
}

# One command of QEMU's monitor, for the chosen core.
monitor() { # COMMAND
    ask '{"execute": "human-monitor-command", "arguments": {"command-line": "'"$1"'", "cpu-index": '"${core:-0}"'}}' ||
        give_up "the monitor refused $1: $answer"
}

# Waits until the serial line has said a word.
await() { # WORD
    for _ in {1..1200}; do
        grep -qa "$1" "$work/serial" && return
        sleep 0.1
    done
    give_up "the guest did not say $1 in 120 seconds"
}

# Waits until a core's registers show a word.
await_core() { # WORD
    for _ in {1..300}; do
        monitor 'info registers'
        [[ $answer == *"$1"* ]] && return
        sleep 0.1
    done
    give_up "the guest did not come to $1 in 30 seconds"
}

# Stops the guest and dumps its memory.
take() {
    ask '{"execute": "stop"}' || give_up 'QEMU did not stop the guest'
    rm -f "$work/dump"
    ask '{"execute": "dump-guest-memory", "arguments": {"paging": false, "protocol": "file:dump"}}' || give_up "no dump: $answer"
}

# Reads the registers of a core, from which reads are compared from now on as it stopped: EL0 or EL1, with PAN or without.
choose() { # CORE, counted from 0
    core=$1
    "$scripts/registers.py" --thread $((core + 1)) --output "$work/registers" "$work/gdb" || give_up 'no registers'
    case $(grep stopped "$work/registers") in
    *'at EL0'*) access=(el0 read) ;;
    *'at EL1 with PAN'*) access=(el1 read pan) ;;
    *'at EL1'*) access=(el1 read) ;;
    *) give_up 'the core stopped neither at EL0 nor at EL1' ;;
    esac
}

# Where QEMU's monitor says that a virtual address goes.
theirs() { # VA
    monitor "gva2gpa $1"
    case $answer in
    *'gpa: 0\r\n'*) place=0x0 ;;
    *'gpa: 0x'*) place=${answer#*gpa: } && place=${place%%[!0-9a-fx]*} ;;
    *Unmapped*) place=unmapped ;;
    *) place=$answer ;;
    esac
}

# The same by the program: the last line of its answer, and in short.
ours() { # VA
    last=$("$program" explain "$work/registers" "$work/dump" "$1" "${access[@]}" 2>&1 | tail -n 2)
    item=${last%%$'\n'*}
    last=${last##*$'\n'}
    case $last in
    'mapped '*) short=${last#mapped } && short=${short%% *} ;;
    *' access-flag fsc '*) short=flag ;;
    'fault '*) short=unmapped ;;
    *) short=$last ;;
    esac
}

# Whether the last item is a descriptor without access flag (bit 10) that stands so in the guest's memory. The monitor
# passes over access flags, so its answer for the virtual address tells nothing of them.
lacks_flag() {
    local value=${item##* value } at=${item#* at }
    [[ $item == s[12]\ word\ * ]] && ((!(value >> 10 & 1))) || return 1
    monitor "xp /1gx ${at%% *}"
    [[ $answer == *": 0x$(printf '%016x' "$value")"* ]]
}

compare() { # NAME VA..
    local name=$1 before=$passed mapped=0 flags=0 va
    shift
    for va; do
        theirs "$va"
        ours "$va"
        if [ "$short" = flag ] && lacks_flag; then
            passed=$((passed + 1))
            flags=$((flags + 1))
        elif [ "$short" = "$place" ]; then
            passed=$((passed + 1))
            [ "$place" = unmapped ] || mapped=$((mapped + 1))
        else
            failed=$((failed + 1))
            echo "failed: $name: $va ${access[*]} goes to $place in QEMU, and here: $last"
        fi
    done
    echo "$name: ${access[*]}: $((passed - before)) of $# alike, $mapped of them mapped, $flags without access flag"
}

# Addresses around the ends of regions, and some in between that only look random.
near() { # ADDRESS..
    local at step
    for at; do
        for step in -0x1000 -8 0 0xabc 0x200000; do printf '0x%x ' $((at + step)); done
    done
}
between() { # COUNT START BITS
    local i x=$2
    for ((i = 0; i < $1; i++)); do
        x=$((x * 6364136223846793005 + 1442695040888963407))
        printf '0x%x ' $(($2 + ((x >> 11) & ((1 << $3) - 1))))
    done
}

# What the program ends with on other files than a whole dump and registers that it knows.
ends_with() { # NAME PATTERN REGISTERS DUMP
    last=$("$program" explain "$work/$3" "$work/$4" 0x40000000 el1 read 2>&1 | tail -n 1)
    if [[ $last == $2 ]]; then
        passed=$((passed + 1))
    else
        failed=$((failed + 1))
        echo "failed: $1: $last"
    fi
}
other_files() {
    local dump='{"execute": "dump-guest-memory", "arguments": {"paging": false, "protocol": "file:' root
    root=$(sed -n 's/^ttbr0_el1 = "\(.*\)"$/\1/p' "$work/registers")
    ask "$dump"'packed", "format": "kdump-zlib"}}' || give_up "no compressed dump: $answer"
    ask "$dump"'part", "begin": 1073741824, "length": 1048576}}' || give_up "no dump of a part: $answer"
    sed 's/^tcr_el1 = .*/tcr_el1 = "0x800000000000010"/' "$work/registers" >"$work/with_ds"
    { cat "$work/registers" && echo 'hcr_el2 = "0x8000000"'; } >"$work/with_tge"
    ends_with 'a compressed dump' 'vmsa: dump: not elf' registers packed
    ends_with 'a dump without the tables' "absent stage 1 level [01] at $root" registers part
    ends_with 'addresses of 52 bits' 'vmsa: registers: unsupported TCR_EL1.DS' with_ds dump
    ends_with 'a process of a VHE host' 'vmsa: registers: unsupported HCR_EL2.TGE' with_tge dump
}

# Flash, devices, RAM, the windows of PCI; where they end; the ends of the lower half and of the upper one.
firmware_guest() {
    start -machine virt -cpu cortex-a57 -m 64 -bios "$firmware"
    await autoboot
    take
    choose 0
    compare U-Boot $(near 0x0 0x4000000 0x8000000 0x9000000 0x10000000 0x3eff0000 0x40000000 0x44000000 0x4010000000 0x8000000000) \
        $(near 0x10000000000 0xffffffffff 0x1000000000000 0x80000000000000 0xff00000000000000 0xffff000000000000) \
        $(near 0xffffff8000000000 0xffffffffffffe000) \
        $(between 80 0x40000000 26) $(between 50 0x0 30) $(between 50 0x0 40) $(between 20 0x0 48) $(between 20 0xffff000000000000 48)
    other_files
    stop_qemu
}

# Each entry of the tables of guest.s, at three places, and tags.
own_guest() { # NAME WORD..
    local name=$1 at vas=()
    shift
    for ((at = 0; at < 7; at++)); do vas+=($(between 3 $((at << 30)) 30)); done
    for ((at = 0; at < 12; at++)); do vas+=($(between 3 $((0xc0000000 + (at << 21))) 21)); done
    for ((at = 0; at < 33; at++)); do vas+=($(between 2 $((0xc0200000 + (at << 12))) 12)); done
    for at in 0xc0400000 0xc0600000 0xc0800000; do vas+=($(near $at $((at + 0x1000)) $((at + 0x2000)) $((at + 0x3000)))); done
    for ((at = 0; at < 6; at++)); do vas+=($(between 3 $((0xfffffc0000000000 + (at << 29))) 29)); done
    for ((at = 0; at < 6; at++)); do vas+=($(between 2 $((0xfffffc0040000000 + (at << 16))) 16)); done
    vas+=(0xab00000040200010 0xff000000c0000abc 0xab80000040200010 0x8000000000 0xfffffbffffffffff 0xabfffc0000000000)
    start -cpu max -m 128 -device loader,file=own,cpu-num=0 "$@"
    await_core X19=000000000000600d
    take
    choose 0
    compare "$name" "${vas[@]}"
    stop_qemu
}

# What the registers and the stack of a core hold, taken as addresses, and what lies around them.
linux_guest() { # CPU KERNEL [INITRD]
    local vas word stack initrd=()
    [ -n "$3" ] && initrd=(-initrd "$(realpath -- "$3")")
    start -machine virt -cpu "$1" -smp 2 -m 512 -kernel "$(realpath -- "$2")" "${initrd[@]}" -append console=ttyAMA0
    await 'Run /init\|Kernel panic\|Starting system log'
    sleep 5
    take
    for core in 0 1; do
        choose "$core"
        monitor 'info registers'
        vas=$(grep -oE '(PC|SP|X[0-9]+)=[0-9a-f]{16}' <<<"$answer" | sed 's/.*=/0x/')
        stack=${answer#* SP=}
        monitor "x /240gx 0x${stack:0:16}"
        vas+=" $(grep -oE '0x[0-9a-f]{16}' <<<"$answer")"
        compare "Linux on $1, core $core" $(for word in $vas; do printf '0x%x 0x%x\n' $((word)) $((word ^ 0x201000)); done | sort -u) \
            $(between 30 0xffff000000000000 48) $(between 30 0x0 48)
    done
    stop_qemu
}

firmware_guest
if command -v aarch64-linux-gnu-as aarch64-linux-gnu-ld >/dev/null; then
    aarch64-linux-gnu-as -o "$work/own.o" "$scripts/guest.s" && aarch64-linux-gnu-ld -Ttext=0x40200000 -o "$work/own" "$work/own.o" ||
        give_up 'guest.s could not be assembled'
    own_guest 'one stage' -machine virt
    own_guest 'two stages' -machine virt,virtualization=on
else
    say 'there is no assembler, so guest.s was not tried: apt-get install binutils-aarch64-linux-gnu'
fi
if [ -n "$2" ]; then
    linux_guest cortex-a57 "$2" "$3"
    linux_guest max "$2" "$3"
fi
say "$passed passed, $failed failed"
[ "$failed" = 0 ]
