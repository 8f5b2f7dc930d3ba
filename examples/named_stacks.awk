# A report with each shadow stack named by who made it: `<T.N` is the start of the stack of thread T's claim or birth
# number N, and the digits behind it say how far on. So reports are alike in which the same is done in another order.

function page(text) { return substr(text, 1, 13) }
function next_page(text,    place, digit) {
    for (place = 13; place && substr(text, place, 1) == "f"; place--) ;
    digit = substr("0123456789abcdef", index("0123456789abcdef", substr(text, place, 1)) + 1, 1)
    return substr(text, 1, place - 1) digit substr("0000000000000", 1, 13 - place)
}
# Names the pages from a start on, and the absent one behind them, where the stack's end is.
function give(start, pages, stack,    at) {
    for (at = 0; at <= pages; at++) { name[start] = "<" stack "+" at "."; start = next_page(start) }
}
function named(text) { return page(text) in name ? name[page(text)] substr(text, 14) : text }

BEGIN { give("0000000200001", 8, "0.0") }
NR == FNR {
    if ($2 == "claim") give(page($5), 1, $1 "." ++made[$1])
    if ($2 == "born") birth[$6] = $1 "." ++made[$1]
    if ($1 == "region" && $3 in birth) give(page($2), 8, birth[$3])
    next
}
$1 == "region" { stack = named($2) " " ($4 == "current" ? $4 " " $5 : $4); order[++count] = stack; next }
/^  / { order[count] = order[count] ", " $1 " " named($2); next }
$1 == "process" { for (at = 1; at <= count; at++) print order[at] | "sort"; close("sort") }
NF == 6 && $1 ~ /^[0-9]/ { print $1, $2, $3, $4, named($5), named($6); next }
{ print }
