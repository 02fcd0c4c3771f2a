#!/bin/sh
# Selects the local roads of the example county, from a fresh clone: ./quickstart.sh [FILTER]
#
# Needs the command `rt` of Rattle's kit, and Python 3.8. Nothing is proved or installed: `rt try` compiles the program, which takes about a minute,
# and runs it. Once the program is built, the built one runs. The rows go to standard output, and everything else to standard error.

set -eu
top=$(cd "$(dirname "$0")" && pwd)
filter=${1:-"CFCC = 'A41'"}
program=$top/crates/extractd/out/extractd
echo "extractd select --where \"$filter\" --data examples 01001" >&2
set -- select --where "$filter" --data "$top/examples" 01001
if [ -x "$program" ]; then
    exec "$program" "$@"
fi
"$top/tools/kit.sh"
echo "compiling, which takes about a minute" >&2
cd "$top/crates/extractd"
exec rt try -- "$@"
