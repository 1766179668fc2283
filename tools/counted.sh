# shellcheck shell=bash
# Adds up what commands count: sourced by .ci/run, tools/rust-tests and tests/peers/run.
#
# A command counts by lines 'N passed, M failed', perhaps with ', K skipped' behind; cargo writes them with semicolons behind 'test result:', one
# for each of its test programs. What could not be tried at all is said on lines that begin with 'skipped:' or have ': skipped'.
passed=0
failed=0
skipped=0
words_of_skipped=''
written=$(mktemp)
trap 'rm -f "$written"' EXIT

# counted last|each COMMAND..: runs a command, shows what it writes, and adds up what its last such line, or each of them, counts. A command
# that fails without counting a failure, or that counts nothing, is a failure itself. Exit status 77 is a test that could not be tried.
counted() {
    local which=$1 status words lines p f s
    shift
    "$@" 2>&1 | tee "$written"
    status=${PIPESTATUS[0]}
    if words=$(grep '^skipped:\|: skipped' "$written"); then words_of_skipped+=$words$'\n'; fi
    if [ "$status" = 77 ]; then return; fi
    lines=$(grep -E '^(test result: \w+\. )?[0-9]+ passed[,;] [0-9]+ failed' "$written" | grep -o -E '[0-9]+ passed[,;] [0-9]+ failed([,;] [0-9]+ skipped)?')
    if [ "$which" = last ]; then lines=$(tail -n 1 <<<"$lines"); fi
    read -r p f s < <(awk '{ p += $1; f += $3; s += $5 } END { print p + 0, f + 0, s + 0 }' <<<"${lines:-0 passed, 1 failed}")
    if [ "$status" != 0 ] && [ "$f" = 0 ]; then f=1; fi
    passed=$((passed + p))
    failed=$((failed + f))
    skipped=$((skipped + s))
}

# The last line. The exit status is 0 only if something was counted and nothing failed.
counted_all() {
    local more=''
    if [ "$skipped" != 0 ]; then more=", $skipped skipped"; fi
    echo "$passed passed, $failed failed$more"
    [ "$failed" = 0 ] && [ $((passed + skipped)) != 0 ]
}
