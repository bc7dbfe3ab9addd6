# shellcheck shell=bash
# What the scripts in tests/ share. They source it first; it is no test itself, and .ci/run, which runs tests/*.sh, leaves it out by its name.
set -u
cd "$(dirname "${BASH_SOURCE[0]}")/.." || exit 1
export PATH="$PATH:/opt/rattle/bin:${HOME:-/root}/.cargo/bin"

passed=0
failed=0
ok() { passed=$((passed + 1)); }
bad() { failed=$((failed + 1)); echo "FAILED: $1"; }

# check NAME COMMAND..: one test, passed where the command's status is 0
check() {
    local name=$1
    shift
    if "$@"; then ok; else bad "$name"; fi
}

# The last line, which .ci/run adds up, and with it the script's status.
finish() {
    echo "$passed passed, $failed failed"
    [ "$failed" -eq 0 ]
}

# Without what it needs, a script ends as one failure.
give_up() {
    echo "0 passed, 1 failed"
    exit 1
}

# needs NAME..: what tools/setup knows
needs() { tools/setup "$@" || give_up; }
