# Completes words as bash would and compares. A row is the words before the cursor, the last of which is begun, a bar, and
# the words that are offered. Bash takes `=` for a word of its own.
here=$(cd "$(dirname "${BASH_SOURCE[0]}")" && pwd) || exit 1
source "$here/../../completions/cetvm.bash" || exit 1
failed=0
rows=0

offered() {
    COMP_WORDS=("$@")
    COMP_CWORD=$(($# - 1))
    _cetvm
    echo "${COMPREPLY[*]}"
}

while IFS='|' read -r words wanted; do
    [[ -n $words ]] || continue
    eval "set -- $words"
    found=$(offered "$@")
    rows=$((rows + 1))
    if [[ $found != "${wanted# }" ]]; then
        echo "tests/pages: $words: '$found' is offered, and not '${wanted# }'"
        failed=1
    fi
done << 'ROWS'
cetvm ""                                    | asm dis check run replay bench smp
cetvm r                                     | run replay
cetvm s                                     | smp
cetvm walk                                  |
cetvm asm ""                                | --runtime
cetvm asm --runtime ""                      |
cetvm dis ""                                |
cetvm check --                              |
cetvm run ""                                | --limit --procs --trace --signals
cetvm run --t                               | --trace
cetvm run --trace ""                        | full last
cetvm run --trace = ""                      | full last
cetvm run --trace =                         | full last
cetvm run --trace = l                       | last
cetvm run --trace last ""                   | --limit --procs --signals
cetvm run --trace = last --p                | --procs
cetvm run --trace=last --l                  | --limit
cetvm run --procs ""                        | 1 2 3 4 5 6 7 8
cetvm run --procs 2 --limit 1000            | 1000 10000 100000
cetvm run --schedule ""                     | --limit --procs --trace --signals
cetvm replay ""                             | --schedule --mix --limit --procs --trace --signals
cetvm replay --mix 1 ""                     | --limit --procs --trace --signals
cetvm replay --schedule "0*41" --m          |
cetvm replay --schedule ""                  | 0 0*1 0*1,1*1
cetvm run --workers ""                      | --limit --procs --trace --signals
cetvm smp ""                                | --workers --limit --procs --trace --signals
cetvm smp --workers ""                      | 1 2 4 8 16
cetvm smp --workers = 1                     | 1 16
cetvm smp --workers 2 --                    | --limit --procs --trace --signals
cetvm smp --m                               |
cetvm bench ""                              | 1 10 100 1000
cetvm bench 10 ""                           |
ROWS
complete -p cetvm | grep -q -e '-F _cetvm' || { echo "tests/pages: bash completes nothing for cetvm"; failed=1; }
((rows >= 20)) || { echo "tests/pages: only $rows completions"; failed=1; }
exit "$failed"
