# shellcheck shell=bash
# What boot.sh and upgrade_boot.sh share. They run inside a booted root, where they get the name of a file, and write values into it. test_package.py and
# test_upgrade.py have a table of these, and each value is a test.

reported=$1
: > "$reported"
documents=/usr/share/doc/extractd

# report NAME VALUE: writes both, each ended by a NUL.
report() { printf '%s\0' "$1" "$2" >> "$reported"; }
# state UNIT: prints how often it was restarted, the exit status of its process, and its state.
state() { systemctl show "$1" -p ActiveState -p ExecMainStatus -p NRestarts --value | paste -s -d ' '; }
# status_of COMMAND..: prints all that a command writes, and its exit status.
status_of() { "$@" 2>&1; echo "status $?"; }
# rows URL: prints how many segments a server has.
rows() { curl -k -s -m 120 --data-binary "@$(find "$documents" -name all.bpf)" "$1/extract" | wc -l; }
health() { curl -k -s -m 120 "$1/health"; }
# await COMMAND..: waits up to a minute until a command succeeds.
await() {
    local end=$((SECONDS + 60))
    until "$@"; do
        [ $SECONDS -lt $end ] || return
        sleep 0.1
    done
}
