# Prints bash's completions of a command line's last word, one per line: bash complete.bash FILE WORD...
# It is part of the tests.
set -u
# shellcheck source=deploy/packaging/completions/extractd.bash
source "$1"
shift
# compopt works only while an interactive shell completes.
compopt() { :; }
# shellcheck disable=SC2034 # The completion reads them.
COMP_WORDS=("$@") COMP_CWORD=$(($# - 1))
_extractd
[ ${#COMPREPLY[@]} -eq 0 ] || printf '%s\n' "${COMPREPLY[@]}"
