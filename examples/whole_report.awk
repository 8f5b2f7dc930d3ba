# Tells what is wrong with a report of full traces, whatever the order of the turns was: each thread has its line and as
# many records as it says; the threads are those that `born` records name, each born once, by one that was there before;
# each shadow stack is that of the first thread, of a claim or of a birth, and is current on its thread alone; each end
# and the process's has its record.

function bad(text) { if (!wrong++) print text }
function is_hex(text) { return length(text) == 16 && text !~ /[^0-9a-f]/ }
function value(text,    at, sum) {
    for (at = 1; at <= 16; at++) sum = sum * 16 + index("0123456789abcdef", substr(text, at, 1)) - 1
    return sum
}

NR == 1 { if ($0 != "cetvm report 1") bad("it begins with " $0); next }
ended { bad("a line behind the last one: " $0); next }
$1 == "thread" {
    if (NF != ($5 == "exit" ? 6 : 5) || $2 != threads + 0 || $3 != "records" || regions) bad("the line " $0)
    if ($5 !~ /^(exit|group|limit)$/) bad("the end in " $0)
    threads++
    stated[$2] = $4
    end[$2] = $5
    status[$2] = $6
    next
}
$1 == "region" {
    if (!is_hex($2) || !is_hex($3) || $2 "" >= $3 "" || $2 "" < free "") bad("the line " $0)
    if ($4 !~ /^(current|parked|left|lost)$/ || NF != ($4 == "current" ? 5 : 4)) bad("the holder in " $0)
    if ($4 == "current") current[$5]++
    free = $3
    ends[$3] = 1
    starts[$2] = $3
    regions++
    next
}
/^  (blank|(frame|ret|prev) [0-9a-f]*)$/ { if (!regions) bad("an entry of no stack: " $0); next }
$1 == "process" { process = $2; number = $3; ended = 1; next }
$1 ~ /^[0-9]+$/ {
    if (NF != 6 || $1 != threads - 1 || !is_hex($3) || !is_hex($5) || !is_hex($6) || regions) bad("the record " $0)
    if ($2 !~ /^(step|call|ret|raise|take|save|busy|sys|claim|born|wrote|signal|ignore|sigret|kill|#(UD|GP|AC|PF|CP))$/) bad("the name in " $0)
    found[$1]++
    name[$1] = $2
    first[$1] = value($5)
    second[$1] = value($6)
    if ($2 == "kill" && value($6) == 0) { kills++; killer = value($5) }
    if ($2 == "claim") { claims++; claimed[$5] = 1 }
    if ($2 == "born") {
        born[value($5)]++
        parent[value($5)] = $1
        pointer[value($5)] = $6
        births++
    }
    next
}
{ bad("the line " $0) }

END {
    if (!ended) bad("it has no last line")
    for (thread in born) if (thread + 0 >= threads) bad("thread " thread " is born and isn't there")
    for (thread = 0; thread < threads; thread++) {
        if (found[thread] + 0 != stated[thread]) bad("thread " thread " has " found[thread] + 0 " records")
        if (born[thread] + 0 != (thread > 0)) bad("thread " thread " is born " born[thread] + 0 " times")
        if (thread && parent[thread] >= thread) bad("thread " thread " is born of a later one")
        if (thread && !(pointer[thread] in ends)) bad("thread " thread " has no shadow stack")
        if (current[thread] + 0 != (end[thread] != "exit")) bad("thread " thread " has " current[thread] + 0 " current stacks")
        if (end[thread] == "exit" && (name[thread] != "sys" || first[thread] != 60 || second[thread] != status[thread])) bad("thread " thread " ends otherwise than by its last record")
        if (end[thread] == "group" && process == "limit") bad("thread " thread " ends by group, and no process did")
    }
    for (thread in current) if (thread + 0 >= threads) bad("a stack of no thread is current")
    for (start in claimed) if (!(start in starts)) bad("the stack claimed at " start " isn't there")
    if (regions != 1 + claims + births) bad(regions " stacks of " claims + 0 " claims and " births + 0 " births")
    if (kills + 0 != (process == "killed") || kills && killer != number) bad("the process ends by " process " " number " and has " kills + 0 " first kills")
    exit wrong > 0
}
