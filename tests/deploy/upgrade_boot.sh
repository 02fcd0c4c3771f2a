#!/usr/bin/env bash
# Reports on an upgrade of the packages while the server runs, where systemd is the first process. test_upgrade.py boots its root with it, in which the
# packages in /packages/old are installed and configured, and has the values.
#
# The old server runs behind nginx. The packages in /packages/new replace it. The new server has to answer at once, for the same counties, through the
# unchanged site. Then the script tries the new settings, a drop-in for another port, which needs PORT=, and a purge, which stops all servers.

set -u
export LC_ALL=C.UTF-8
# shellcheck source=tests/deploy/report.sh
. "$(dirname "$0")/report.sh"

# program UNIT: prints the file that its process runs.
program() { readlink "/proc/$(systemctl show "$1" -p MainPID --value)/exe"; }
# upgrade: installs the new packages as docs/operating.md says.
upgrade() { DEBIAN_FRONTEND=noninteractive apt-get install -y --no-install-recommends /packages/new/*.deb > /tests/upgrade 2>&1; }
# ends COMMAND..: prints a command's exit status, and the end of what the upgrade said if it isn't 0.
ends() { if "$@"; then echo 0; else echo "$?: $(tail -n 5 /tests/upgrade)"; fi; }

answers() { [ "$(curl -s -o /dev/null -w '%{http_code}' 127.0.0.1:8080/jobs/0)" = 404 ]; }
# try_old: the old server answers. Its unit may count as started before that.
try_old() {
    await answers
    systemctl restart nginx
    report 'the old server' "$(state extractd)"
    report 'its segments' "$(rows 127.0.0.1:8080) $(rows https://127.0.0.1)"
}

# try_upgrade: the new server answers at the end of the upgrade.
try_upgrade() {
    report 'the upgrade' "$(ends upgrade)"
    report 'the new server answers' "$(health 127.0.0.1:8080) $(health https://127.0.0.1)"
    report 'state of the new server' "$(state extractd) $(systemctl is-enabled extractd) $(systemctl show extractd -p NeedDaemonReload --value)"
    report 'program of the new server' "$(program extractd)"
    report 'segments of the new server' "$(rows 127.0.0.1:8080) $(rows https://127.0.0.1)"
}

# try_settings: further servers run, and swap.sh changes the site that was kept.
try_settings() {
    echo COUNTIES=01007 > /etc/default/extractd-8081
    systemctl enable --now --quiet extractd@8081
    report 'a server at port 8081' "$(rows 127.0.0.1:8081) $(state extractd@8081)"
    report swap.sh "$(status_of "$documents/deploy/server/swap.sh" 8080 8081)"
    report 'segments after the swap' "$(rows https://127.0.0.1)"
    echo PORT=8082 >> /etc/default/extractd
    systemctl restart extractd
    report 'another port' "$(rows 127.0.0.1:8082) $(state extractd)"
}

purge() { dpkg --purge extractd python3-tigerline > /tests/upgrade 2>&1; }
# try_purge: the purge stops the servers, and leaves only what the administrator wrote.
try_purge() {
    report 'the purge' "$(ends purge)"
    report 'servers that still run' "$(find /proc -maxdepth 2 -name exe -lname '*extractd*' 2> /dev/null)"
    report 'files that are left' \
        "$(find / -xdev \( -path /packages -o -path /tests \) -prune -o \( -name '*extractd*' -o -name '*tigerline*' \) -print | sort | paste -s -d ' ')"
}

# try_drop_in: a unit of version 1.0 gets another port by a drop-in. The new one waits at PORT.
try_drop_in() {
    local folder=/etc/systemd/system/extractd.service.d
    dpkg --install /packages/old/*.deb > /tests/upgrade 2>&1
    mkdir -p "$folder"
    # shellcheck disable=SC2016 # systemd expands it.
    printf '%s\n' '[Service]' ExecStart= 'ExecStart=/usr/bin/extractd serve --data /srv/tiger --port 8085 $COUNTIES' SocketBindAllow=ipv4:tcp:8085 \
        > "$folder/port.conf"
    printf '%s\n' PORT=8085 COUNTIES=01001 > /etc/default/extractd
    systemctl daemon-reload
    systemctl start extractd
    report 'the upgrade with a drop-in' "$(ends upgrade)"
    report 'a server with a drop-in' "$(rows 127.0.0.1:8085) $(state extractd)"
}

try_old
try_upgrade
try_settings
try_purge
try_drop_in
