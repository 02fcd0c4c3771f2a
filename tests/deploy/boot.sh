#!/usr/bin/env bash
# Reports what the installed package's units do where systemd is the first process. test_package.py boots its clean root with it, and has the values.
#
# A started unit answers, the template takes its port and its settings, a crash is followed by a restart, and a refused county or too little memory
# isn't. nginx goes from one server to another by swap.sh.

set -u
export LC_ALL=C.UTF-8
# shellcheck source=tests/deploy/report.sh
. "$(dirname "$0")/report.sh"

# segments URL: prints how many segments of the example county a server has.
segments() { curl -k -s -m 120 --data-binary "@$documents/examples/programs/all.bpf" "$1/extract" | grep -a -c '^0.10006'; }

# try_start: both units answer when they are started, with the counties of their own settings.
try_start() {
    mkdir -p /srv/tiger /srv/tiger-2
    cp "$documents"/examples/TGR* /srv/tiger
    cp "$documents"/examples/one/TGR* /srv/tiger-2
    printf '%s\n' DATA=/srv/tiger-2 OPTIONS=--log > /etc/default/extractd-8081
    report 'extractd is started' "$(status_of systemctl start extractd) $(health 127.0.0.1:8080)"
    report 'extractd@8081 is started' "$(status_of systemctl start extractd@8081) $(health 127.0.0.1:8081)"
    report 'state of extractd' "$(state extractd)"
    report 'state of extractd@8081' "$(state extractd@8081)"
    report 'their segments' "$(segments 127.0.0.1:8080) $(segments 127.0.0.1:8081)"
    journalctl --sync
    report 'log of extractd@8081' "$(journalctl -u extractd@8081 -o cat -g '^[0-9-]' | grep -o '"GET /health HTTP/1.1" 200 3' | sort -u)"
    report 'log of extractd' "$(journalctl -u extractd -o cat | grep HTTP/1)"
    report 'servers that run as root' "$(find "/proc/$(systemctl show extractd -p MainPID --value)" -maxdepth 0 -user root)"
}

is_restarted() { [ "$(state extractd)" = '1 0 active' ]; }
# try_crash: the unit starts again.
try_crash() {
    kill -KILL "$(systemctl show extractd -p MainPID --value)"
    await is_restarted
    report 'a crash' "$(state extractd) $(health 127.0.0.1:8080)"
}

# try_swap: nginx goes to the other server, and the first one can be stopped.
try_swap() {
    cp "$documents/deploy/server/site.conf" /etc/nginx/conf.d/extractd.conf
    openssl req -x509 -newkey rsa:2048 -nodes -days 1 -subj /CN=extractd -keyout /etc/nginx/extractd.key -out /etc/nginx/extractd.crt 2> /dev/null
    systemctl restart nginx
    report 'segments through nginx' "$(segments https://127.0.0.1)"
    report swap.sh "$(status_of "$documents/deploy/server/swap.sh" 8080 8081)"
    systemctl stop extractd
    report 'segments after the swap' "$(segments https://127.0.0.1) $(systemctl is-active extractd)"
}

# try_refusals: what doesn't improve by itself isn't tried again.
try_refusals() {
    echo COUNTIES=01002 > /etc/default/extractd-8082
    report 'a missing county' "$(systemctl start extractd@8082 2> /dev/null; echo $?) $(state extractd@8082 | cut -d ' ' -f 2)"
    systemctl stop extractd@8082
    mkdir -p /srv/tiger-3 /srv/tiger-4 /etc/systemd/system/extractd@8084.service.d
    head -n 1 "$documents/examples/README.md" > /srv/tiger-3/TGR01001.RT1
    echo DATA=/srv/tiger-3 > /etc/default/extractd-8083
    for _ in {1..1000}; do cat "$documents/examples/TGR01001.RT1"; done > /srv/tiger-4/TGR01001.RT1
    echo DATA=/srv/tiger-4 > /etc/default/extractd-8084
    printf '[Service]\nLimitAS=64M\n' > /etc/systemd/system/extractd@8084.service.d/limit.conf
    systemctl daemon-reload
    systemctl start extractd@8083 2> /dev/null
    systemctl start extractd@8084 2> /dev/null
    # A restart would come after a second.
    sleep 3
    report 'a refused county' "$(state extractd@8083)"
    report 'too little memory' "$(state extractd@8084)"
}

try_start
try_crash
try_swap
try_refusals
