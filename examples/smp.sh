#!/bin/sh
# Runs guests by `smp`, whose threads have their turns beside each other, and looks at each run for what holds in every
# order of the turns:
# - a guest of one thread, and one whose values depend on no order, has the report of `run`;
# - in four_threads_of_contexts no record is a fault, and with the shadow stacks named by who made them the report is that
#   of `run`;
# - in a race for one token one thread takes the stack and the other has #CP with code 4, and `replay` makes the same report
#   from the list of turns that the report tells;
# - 32 threads on one worker, and on 16, have the records of `run` but for those named `busy`;
# - where threads, or their process, end while others are being born, the report is whole (whole_report.awk).
# The first argument may name another program, the second one a number by which the runs of a kind are divided.
cd "$(dirname "$0")" || exit 1
cetvm=${1:-../crates/cetvm/out/cetvm}
part=${2:-1}
if [ ! -x "$cetvm" ]; then
    echo "smp: no program at $cetvm"
    exit 1
fi
work=$(mktemp -d) || exit 1
trap 'rm -rf "$work"' EXIT
failed=0
runs=0

fail() {
    echo "smp: $1"
    failed=1
}

# The numbers from 1 to so many, or to the part of them that is wanted.
some() {
    seq $((($1 + part - 1) / part))
}

# Makes the image of a source, by `asm` or the words behind it.
image() {
    source=$1
    shift
    "$cetvm" "${@:-asm}" < "$source" > "$work/image" || fail "$source is not assembled"
}

# Runs the image by these words. It is to end by this status and line, with a whole report.
run() {
    wanted=$1
    shift
    runs=$((runs + 1))
    "$cetvm" "$@" < "$work/image" > "$work/report" 2> "$work/line"
    told="$? $(cat "$work/line")"
    [ "${told% }" = "$wanted" ] || fail "$source by $* ends by $told"
    wrong=$(awk -f whole_report.awk "$work/report") || fail "$source by $*: $wrong"
}

# What `run` makes of the image, with these words behind.
stated() {
    "$cetvm" run "$@" < "$work/image" > "$work/run" 2> "$work/line"
}

# The report is to be this one.
is() {
    cmp -s "$work/report" "$1" || fail "$source by smp has another report than $1"
}

# Guests whose reports depend on no order: all examples of one thread, and one of two that share nothing.
for source in *.s; do
    name=${source%.s}
    printf 'asm\nrun\n' > "$work/words"
    [ -f "$name.words" ] && cp "$name.words" "$work/words"
    { read -r made; read -r words; } < "$work/words"
    [ -f "$name.report" ] || continue
    case $words:$(cat "$name.report") in
    *"thread 1 "*) continue ;;
    run*) ;;
    *) continue ;;
    esac
    # shellcheck disable=SC2086
    image "$source" $made
    # shellcheck disable=SC2086
    run "$(paste -s -d ' ' "$name.status")" smp ${words#run}
    is "$name.report"
done
for source in exit_seven.s turnstile.s; do
    image $source
    for workers in 1 2 16; do
        for _ in $(some 5); do
            run 0 smp --workers $workers
            is "${source%.s}.report"
        done
    done
done

# A loop without an end, of one thread and of two.
image limits_reached.s
stated --limit 1000
run "8 cetvm: limit in thread 0" smp --limit 1000
is "$work/run"
run "8 cetvm: limit in thread 0" smp
cat > "$work/loops.s" << 'END'
mov edi, 0x10900
lea rsi, [rsp-4096]
mov eax, 56
syscall
s: jmp short s
END
image "$work/loops.s"
stated --limit 1000
for workers in 1 2 16; do
    run "8 cetvm: limit in thread 0" smp --limit 1000 --workers $workers
    is "$work/run"
done

# Four threads with eight contexts each.
image four_threads_of_contexts.s asm --runtime
named() {
    awk -f named_stacks.awk "$1" "$1"
}
stated
named "$work/run" > "$work/named"
for _ in $(some 100); do
    run 0 smp --workers 4
    [ "$(grep -c '^thread [0-3] records [0-9]* exit 0$' "$work/report")" = 4 ] || fail "$source has other threads"
    grep -q '^[0-9]* \(#\|kill \)' "$work/report" && fail "$source has a fault"
    named "$work/report" | cmp -s - "$work/named" || fail "$source does something else than under run"
done

# The races for one token. Thread 1 is there from turn 41 of thread 0 on, and thread 0 has two more before it is back from
# the kernel. Each then has so many turns before RSTORSSP, those stated, and four for it. The first thread goes round a loop
# with a record each two turns, until the second one, which has 7 turns for its kill, has ended the process. The turns of
# the one and then those of the other are one order that makes the report.
race() {
    takes=$(grep -c '^[01] take ' "$work/report")
    misses=$(grep -c '^[01] #CP [0-9a-f]* 4 000000020000aff8 ' "$work/report")
    [ "$takes $misses" = "1 1" ] || fail "$source has $takes takes and $misses misses"
    rounds=$(awk 'took && $1 == thread && $2 == "step" { rounds++ }
        $2 == "take" { took = 1; thread = $1 } END { print rounds + 0 }' "$work/report")
    if grep -q '^0 take ' "$work/report"; then
        first=$((first + 1))
        turns="0*$((41 + 2 + $1 + 4 + 2 * rounds)),1*$(($2 + 4 + 7))"
    else
        turns="0*41,1*$(($2 + 4 + 2 * rounds)),0*$((2 + $1 + 4 + 7))"
    fi
    "$cetvm" replay --schedule "$turns" < "$work/image" 2> "$work/line" | cmp -s - "$work/report" ||
        fail "$source has another report than by the turns $turns"
}
# In this one the parent waits twice as long as its child.
cat > "$work/late_parent.s" << 'END'
mov edi, 0
mov esi, 4096
mov edx, 1
mov eax, 453
syscall
mov rbx, rax
mov edi, 0x10900
lea rsi, [rsp-4096]
mov eax, 56
syscall
mov ebp, 400
test rax, rax
jne l
mov ebp, 200
l: dec rbp
jne l
rstorssp [rbx+4088]
s: jmp short s
END
first=0
races=0
while read -r file count turns_of_0 turns_of_1; do
    image "$file"
    for workers in 2 4; do
        for _ in $(some "$count"); do
            run "7 cetvm: killed by 11" smp --workers $workers
            race "$turns_of_0" "$turns_of_1"
            races=$((races + 1))
        done
    done
done << END
token_race.s 100 0 0
delayed_race.s 15 802 802
$work/late_parent.s 15 1606 808
END

# All threads that a process can have, on one worker and on 16.
image all_births.s
unbusy() {
    sed '/^[0-9]* busy /d; s/ records [0-9]* / /' "$1"
}
unbusy all_births.report > "$work/unbusy"
for workers in 1 2 16; do
    for _ in $(some 5); do
        run 0 smp --workers $workers
        unbusy "$work/report" | cmp -s - "$work/unbusy" || fail "$source on $workers workers has other records"
    done
done

# Births in all threads, and ends while others are being born: of each parent, of the process by exit_group and by a fault.
births() {
    printf 'again: mov edi, 0x10900\nlea rsi, [rsp-4096]\nmov eax, 56\nsyscall\n'
    case $1 in
    exit) printf 'test rax, rax\nje again\nmov edi, 0\nmov eax, 60\nsyscall\n' ;;
    group) printf 'cmp rax, %d\njb again\nmov edi, 3\nmov eax, 231\nsyscall\n' $((1000 + $2)) ;;
    kill) printf 'cmp rax, %d\njb again\nud2\n' $((1000 + $2)) ;;
    esac
}
threads=
for how in exit:0 group:4 kill:4 group:12 kill:12; do
    births "${how%:*}" "${how#*:}" > "$work/${how%:*}.s"
    image "$work/${how%:*}.s"
    case $how in
    kill:*) wanted="7 cetvm: killed by 4" end="killed 4" ;;
    group:*) wanted=0 end="exit 3" ;;
    *) wanted=0 end="exit 0" ;;
    esac
    for workers in 2 4 16; do
        for _ in $(some 6); do
            run "$wanted" smp --workers $workers
            [ "$(tail -n 1 "$work/report")" = "process $end" ] || fail "$source ends otherwise"
            threads="$threads $(grep -c '^thread ' "$work/report")"
        done
    done
done
numbers=$(echo "$threads" | tr ' ' '\n' | sort -n | uniq | sed 1d | tr '\n' ' ')

if [ "$failed" = 0 ]; then
    echo "smp: $runs runs as stated; thread 0 is first in $first of $races races; processes of ${numbers% } threads"
fi
exit "$failed"
