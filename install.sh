#!/bin/sh
# Installs extractd below a folder, or uninstalls it. `install.sh --help` describes the options.

set -eu
umask 022

usage() {
    cat << 'END'
usage: install.sh [--program FILE] PREFIX
       install.sh --uninstall PREFIX

Installs the program, the Python package with its command tigerline, manual pages,
completions for bash and zsh, the header for programs in C, systemd units, documents
and examples below PREFIX, such as /usr/local or ~/.local. A version that is installed
there is replaced. --uninstall removes these files, and the folders that were made for
them.

  --program FILE  the built program; without it, the one that `rt ci` and `rt run`
                  leave at crates/extractd/out/extractd

DESTDIR in the environment is put before PREFIX, but not into installed files.
END
}

misused() {
    usage >&2
    exit 2
}

fail() {
    echo "install.sh: $*" >&2
    exit 1
}

here=$(cd "$(dirname "$0")" && pwd)
program=$here/crates/extractd/out/extractd
action=install_all prefix=''
while [ $# -gt 0 ]; do
    case $1 in
    --help | -h)
        usage
        exit
        ;;
    --uninstall) action=uninstall ;;
    --program)
        [ $# -ge 2 ] || misused
        program=$2
        shift
        ;;
    -* | '') misused ;;
    *)
        [ -z "$prefix" ] || misused
        prefix=$1
        ;;
    esac
    shift
done
[ -n "$prefix" ] || misused
case $prefix in
/*) ;;
*) prefix=$PWD/$prefix ;;
esac
case $prefix in
*[!A-Za-z0-9/._+-]*) fail "PREFIX has a character that a unit's path can't have" ;;
esac
prefix=${prefix%/}
root=${DESTDIR-}$prefix
# What was installed, one path below PREFIX per line. Folders end with a slash.
list=$root/share/extractd/installed

# Prints what to install: the mode, the source, and the path below PREFIX, separated by tabs.
files() {
    item 755 "$program" bin/extractd
    item 755 "$here/deploy/packaging/tigerline" bin/tigerline
    below python tigerline lib/python3/dist-packages
    for page in "$here"/deploy/packaging/man/*.1; do
        item 644 "$page" "share/man/man1/${page##*/}"
    done
    item 644 "$here/deploy/packaging/completions/extractd.bash" share/bash-completion/completions/extractd
    item 644 "$here/deploy/packaging/completions/_extractd" share/zsh/site-functions/_extractd
    item 644 "$here/tools/c/extractd.h" include/extractd.h
    for unit in "$here"/deploy/server/*.service; do
        item 644 "$unit" "lib/systemd/system/${unit##*/}"
    done
    # What the pages use. Those for contributors stay in the sources.
    for path in README.md CHANGELOG.md SECURITY.md LICENSE docs examples tools/c tools/make_county.py tools/make_town.py deploy/server deploy/cluster; do
        below . "$path" share/doc/extractd
    done | grep -v -E '/docs/(ARCHITECTURE|CHANGING|DECISIONS)\.md$'
}

item() { printf '%s\t%s\t%s\n' "$@"; }

# below FOLDER PATH TARGET: prints the files of PATH, which is in FOLDER, with the same names below TARGET.
below() {
    (cd "$here/$1" && find "$2" -name __pycache__ -prune -o -type f -print | LC_ALL=C sort) | while IFS= read -r file; do
        mode=644
        [ ! -x "$here/$1/$file" ] || mode=755
        item $mode "$here/$1/$file" "$3/$file"
    done
}

# Makes the missing folders of a path, and records them.
make_folders() {
    case $1 in
    */*) make_folders "${1%/*}" ;;
    esac
    [ -d "$root/$1" ] || { mkdir "$root/$1" && made="$made$1/
"; }
}

# put MODE SOURCE PATH: installs a file. A unit gets the paths below PREFIX, and a page links only to what is installed.
put() {
    case $3 in
    *.service) sed "s|/usr/local/|$prefix/|g" "$2" > "$root/$3" && chmod "$1" "$root/$3" ;;
    share/doc/extractd/*.md)
        sed -n 's|^share/doc/extractd/||p' "$list" |
            awk -v page="${3#share/doc/extractd/}" -v folder="$prefix/share/doc/extractd" -f "$here/deploy/packaging/page.awk" - "$2" > "$root/$3" &&
            chmod "$1" "$root/$3"
        ;;
    *) install -T -m "$1" "$2" "$root/$3" ;;
    esac
}

install_all() {
    if [ ! -f "$program" ] || [ ! -x "$program" ]; then
        fail "$program: no program is there; build it, or name it by --program"
    fi
    [ ! -f "$list" ] || uninstall
    mkdir -p "$root"
    made=''
    make_folders share/extractd
    # The list comes first: an installation that fails half-way can be removed.
    {
        printf '%s' "$made"
        files | cut -f 3
    } > "$list"
    files | while IFS="$(printf '\t')" read -r mode source target; do
        made=''
        make_folders "${target%/*}" && printf '%s' "$made" >> "$list" && put "$mode" "$source" "$target" || exit
    done || fail 'not everything is installed; --uninstall removes what is'
}

uninstall() {
    [ -f "$list" ] || fail "$list: not found, so nothing is installed there"
    grep -v '/$' "$list" | while IFS= read -r file; do
        # A folder in the place of a file isn't ours.
        [ -d "$root/$file" ] || rm -f "$root/$file"
        case $file in
        # Python keeps compiled modules next to it.
        *.py) remove_compiled "$root/${file%/*}/__pycache__" "$(basename "$file" .py)" ;;
        esac
    done
    folders=$(grep '/$' "$list" | LC_ALL=C sort -r)
    rm -f "$list"
    # A folder with other files stays.
    echo "$folders" | while IFS= read -r folder; do
        [ -z "$folder" ] || rmdir "$root/$folder" 2> /dev/null || :
    done
}

# remove_compiled FOLDER MODULE
remove_compiled() {
    [ -d "$1" ] || return 0
    rm -f "$1/$2".*.pyc
    rmdir "$1" 2> /dev/null || :
}

$action
