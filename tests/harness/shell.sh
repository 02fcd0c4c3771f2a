#!/usr/bin/env bash
# Runs one test of a file: shell.sh FILE TEST
#
# The test is a function of the file, and runs in the current folder, which is new. It passes if at least one thing was checked, by `pass` or `fail`, and
# nothing failed. Prints what failed, and the counts.

set -u
export LC_ALL=C
# shellcheck disable=SC2034 # The file uses it.
top=$(realpath "$(dirname "$0")/../..") scratch=$PWD
passed=0 failed=0

pass() { passed=$((passed + 1)); }

# fail TEXT..: counts a failure, and prints the lines.
fail() {
    failed=$((failed + 1))
    printf '%s\n' "$@"
}

# equal NAME EXPECTED ACTUAL
equal() {
    if [ "$2" = "$3" ]; then pass; else fail "$1" "should be: $2" "and is: $3"; fi
}

# case_of STATUS SIZE TEXT COMMAND: checks the exit status, the number of bytes written, and standard error. `*` matches any size or any text.
case_of() {
    local status size text
    : > out
    : > err
    eval "{ $4; } > out 2> err < /dev/null"
    status=$? size=$(stat -c %s out) text=$(cat err)
    # shellcheck disable=SC2053 # They are patterns.
    if [ "$status" = "$1" ] && [[ $size == $2 ]] && [[ $text == $3 ]]; then pass; else
        fail "$4" "should give status $1, $2 bytes and: $3" "and gives status $status, $size bytes and: $text"
    fi
}

# Processes in `started` are stopped at the end.
started=()
end() {
    kill "${started[-1]}" 2> /dev/null
    wait "${started[-1]}" 2> /dev/null
    unset 'started[-1]'
}
leave() { while [ ${#started[@]} -gt 0 ]; do end; done; }
trap leave EXIT
trap 'exit 1' INT TERM HUP

export HOME=$PWD/home
mkdir home
echo silent > home/.curlrc
# shellcheck disable=SC1090 # It isn't always the same file.
. "$1"
if ! declare -F "$2" > /dev/null; then fail "$1 doesn't define $2"; else "$2"; fi
[ $((passed + failed)) -gt 0 ] || fail "$2 checks nothing"
echo "$passed passed, $failed failed"
[ "$failed" -eq 0 ]
