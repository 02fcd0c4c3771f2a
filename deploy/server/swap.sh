#!/bin/sh
# Sends nginx's requests to another server, without a failed one: swap.sh FROM TO
#
# FROM and TO are ports of this machine, and a server must answer at TO. The script ends when nginx waits for no reply from FROM, whose server can
# then be stopped. If nginx doesn't accept the changed site, the site stays as it was. Needs curl, and root.
#
# SITE is the site's file, by default /etc/nginx/conf.d/extractd.conf, NGINX the command with its options, by default nginx, and PID_FILE the file
# with the number of its process, by default /run/nginx.pid.

set -eu
site=${SITE:-/etc/nginx/conf.d/extractd.conf} nginx=${NGINX:-nginx} pid_file=${PID_FILE:-/run/nginx.pid}

fail() {
    echo "${0##*/}: $*" >&2
    exit 1
}

case ${1-}:${2-} in
*[!0-9:]* | :* | *:) set -- ;;
esac
if [ $# -ne 2 ]; then
    echo "usage: ${0##*/} FROM TO" >&2
    exit 2
fi
from=$1 to=$2
[ "$(curl -s --max-time 300 "http://127.0.0.1:$to/health")" = ok ] || fail "no server answers at port $to"
grep -q "^ *server 127\.0\.0\.1:$from " "$site" || fail "$site: no upstream has port $from"
# These workers end when they have all replies that they wait for.
process=$(cat "$pid_file")
workers=$(cat "/proc/$process/task/$process/children")

before=$(mktemp)
trap 'rm -f "$before"' EXIT
cp "$site" "$before"
sed "s/^\( *server 127\.0\.0\.1:\)$from /\1$to /" "$before" > "$site"
# shellcheck disable=SC2086 # They are words.
if ! said=$($nginx -t -q 2>&1); then
    cat "$before" > "$site"
    fail "nginx doesn't accept the changed site: $said"
fi
kill -HUP "$process"
for worker in $workers; do
    while [ -d "/proc/$worker" ]; do sleep 0.1; done
done
