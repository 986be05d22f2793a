# What the checks of .ci/ that are written for the shell share: they count what they tried, what failed, and what they
# skipped and why.
# shellcheck shell=bash
# The check that reads this sets `check`, its name.

passed=0
failed=0
skipped=0

# passes [COUNT]: so many trials were good
passes() {
    passed=$((passed + ${1:-1}))
}

# wrong WORD..: a trial wasn't good
wrong() {
    failed=$((failed + 1))
    echo "$check: $*"
}

# tries TEXT WORD..: a command that is good where it ends with 0; the text says what it means if not
tries() {
    local text=$1
    shift
    if "$@"; then passes; else wrong "$text"; fi
}

# skips WHY: a trial can't be made here
skips() {
    skipped=$((skipped + 1))
    echo "$check: skipped: $*"
}

# ends: says the counts and ends; with 1 where a trial failed, where nothing was tried though nothing was skipped, or
# where something was skipped and SCCS_CHECKS=all asks for everything
ends() {
    [ $((passed + failed + skipped)) != 0 ] || wrong "nothing was tried"
    [ "$skipped" = 0 ] || [ "${SCCS_CHECKS-}" != all ] || wrong "something was skipped, and everything is to be tried"
    echo "$check: $passed passed, $failed failed, $skipped skipped"
    [ -z "${SCCS_COUNTS-}" ] || echo "$passed $failed $skipped" >>"$SCCS_COUNTS"
    [ "$failed" = 0 ]
    exit
}

# needs_program: ends where there is no program to try
needs_program() {
    [ -x "$program" ] && return
    wrong "the program isn't built"
    ends
}

# finds_cssc NAME: sets `cssc` to the folder of CSSC's utilities; ends where NAME isn't in one
finds_cssc() {
    for cssc in "${CSSC-}" /usr/lib/cssc /usr/lib/*/cssc /usr/libexec/cssc; do
        [ -n "$cssc" ] && [ -x "$cssc/$1" ] && return
    done
    skips "CSSC isn't here"
    ends
}
