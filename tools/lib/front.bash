# shellcheck shell=bash
# What check-rule and show-route, which source it with their folder as $here, share: their set-up, and that a verdict that was lost is none.
# Whatever goes wrong, the status is 2 and never that of a verdict.
readonly NO_VERDICT=2

# is_asked OPTION ARGUMENT..: whether the option is among the arguments, before any --
is_asked() {
    local option=$1 arg
    shift
    for arg; do
        case "$arg" in --) return 1 ;; "$option" | "$option"=*) return 0 ;; esac
    done
    return 1
}

# front NAME VIEW NEEDED.. -- ARGUMENT..: what NAME needs is set up, and the program tools/VIEW run; --help and --version need no set-up.
front() {
    local name=$1 view=$2 needed=() status
    shift 2
    while [ "$1" != -- ]; do
        needed+=("$1")
        shift
    done
    shift
    # node opens a closed output or input anew, so that a lost verdict would look written, and a lost rule empty
    if [ ! -e /proc/$$/fd/1 ]; then
        echo "$name: the output is closed" >&2
        exit $NO_VERDICT
    fi
    if [ ! -e /proc/$$/fd/0 ]; then exec 0>/dev/null; fi
    if is_asked --help "$@" || is_asked --version "$@"; then
        needed=()
        command -v node >/dev/null || needed=(node)
    fi
    # shellcheck disable=SC2154
    "$here/tools/setup" --ask "${needed[@]}" || exit $NO_VERDICT
    "$here/tools/$view" "$@"
    status=$?
    if [ $status -gt $NO_VERDICT ]; then
        echo "$name: it came to no end of its own (status $status)" >&2
        exit $NO_VERDICT
    fi
    exit $status
}
