#!/usr/bin/env bash
# Builds Debian packages from a built program: deploy/packaging/deb.sh PROGRAM FOLDER
#
# PROGRAM is an x86-64 ELF file. The packages appear in FOLDER: extractd_VERSION_amd64.deb, and python3-tigerline_VERSION_all.deb with the Python
# package and its command. Together they contain what install.sh installs, in Debian's folders, and the program without debug symbols.
# Needs dpkg-dev and binutils, but not root. MAINTAINER is the packages' maintainer, such as `Name <address>`. Two builds of the same commit
# and program are equal, byte for byte. Dates are that of the commit, or SOURCE_DATE_EPOCH.

set -euo pipefail
export LC_ALL=C
umask 022

fail() {
    echo "${0##*/}: $*" >&2
    exit 1
}

if [ $# -ne 2 ]; then
    echo "usage: ${0##*/} PROGRAM FOLDER" >&2
    exit 2
fi
program=$1 folder=$2
top=$(realpath "$(dirname "$0")/../..")
for command in dpkg-deb dpkg-shlibdeps objdump strip; do
    command -v "$command" > /dev/null || fail "$command: not found; install dpkg-dev and binutils"
done
if [ ! -f "$program" ] || [ ! -x "$program" ]; then
    fail "$program: no program is there"
fi
[ -d "$folder" ] || fail "$folder: no folder is there"
objdump -f "$program" 2> /dev/null | grep -q 'file format elf64-x86-64' || fail "$program: not an x86-64 ELF file"
version=$("$program" --version 2>&1 < /dev/null || :)
[[ $version =~ ^extractd\ ([0-9]+\.[0-9]+\.[0-9]+)$ ]] || fail "$program: --version isn't that of extractd"
version=${BASH_REMATCH[1]}-1
maintainer=${MAINTAINER:-The maintainers of extractd <maintainers@extractd.invalid>}
SOURCE_DATE_EPOCH=${SOURCE_DATE_EPOCH:-$(git -C "$top" log -1 --format=%ct 2> /dev/null || stat -c %Y "$top/CHANGELOG.md")}
export SOURCE_DATE_EPOCH

scratch=$(mktemp -d)
trap 'rm -rf "$scratch"' EXIT
trap 'exit 1' INT TERM HUP
root=$scratch/debian/extractd python_root=$scratch/debian/python3-tigerline
documents=usr/share/doc/extractd

# Installs what install.sh installs, in Debian's folders and in the roots of both packages.
stage() {
    cp "$program" "$scratch/extractd"
    strip --strip-unneeded --remove-section=.comment --remove-section=.note "$scratch/extractd"
    DESTDIR=$root "$top/install.sh" --program "$scratch/extractd" /usr
    rm -r "$root/usr/share/extractd"
    mv "$root/usr/share/zsh/site-functions" "$root/usr/share/zsh/vendor-completions"
    gzip -9n "$root"/usr/share/man/man1/*
    mkdir -p "$python_root"/usr/{bin,lib,share/man/man1,share/doc/python3-tigerline}
    mv "$root/usr/bin/tigerline" "$python_root/usr/bin"
    mv "$root/usr/lib/python3" "$python_root/usr/lib"
    mv "$root/usr/share/man/man1/tigerline.1.gz" "$python_root/usr/share/man/man1"
    name_documents "$root/$documents" extractd
    name_documents "$python_root/usr/share/doc/python3-tigerline" python3-tigerline
    rm "$root/$documents/CHANGELOG.md" "$root/$documents/LICENSE"
    unlink_removed
}

# name_documents FOLDER PACKAGE: writes the documents that each package has.
name_documents() {
    gzip -9n < "$root/$documents/CHANGELOG.md" > "$1/changelog.gz"
    changelog "$2" | gzip -9n > "$1/changelog.Debian.gz"
    install -m 644 "$top/deploy/packaging/copyright" "$1/copyright"
}

# unlink_removed: removes the links to the documents that have other names here.
unlink_removed() {
    local page
    (cd "$root/$documents" && find . -type f -printf '%P\n') > "$scratch/documents"
    grep '\.md$' "$scratch/documents" | while read -r page; do
        awk -v page="$page" -f "$top/deploy/packaging/page.awk" "$scratch/documents" "$root/$documents/$page" > "$scratch/page"
        cat "$scratch/page" > "$root/$documents/$page"
    done
}

# changelog PACKAGE
changelog() {
    cat << END
$1 ($version) unstable; urgency=medium

  * Version ${version%-*}. changelog.gz lists the changes.

 -- $maintainer  $(date -u -R -d "@$SOURCE_DATE_EPOCH")
END
}

# Prints the packages of the libraries that the program loads, with versions that have the symbols it needs.
depends() {
    printf 'Source: extractd\n\nPackage: extractd\nArchitecture: amd64\n' > "$scratch/debian/control"
    (cd "$scratch" && dpkg-shlibdeps -O debian/extractd/usr/bin/extractd) | sed -n 's/^shlibs:Depends=//p'
}

# size ROOT: prints the kibibytes that a package takes.
size() { find "$1" -type f -printf '%s\n' | awk '{ total += int(($1 + 1023) / 1024) } END { print total }'; }

control() {
    cat << END
Package: extractd
Version: $version
Architecture: amd64
Maintainer: $maintainer
Installed-Size: $(size "$root")
Depends: $depends
Suggests: python3-tigerline, nginx, openssl, curl, python3
Section: science
Priority: optional
Description: select street segments of TIGER/Line 2006 files
 extractd selects street segments of a county by a filter, or by a program in
 the BPF instruction set (RFC 9669), and geocodes addresses. It reads the Census
 Bureau's TIGER/Line 2006 files, as a command and over HTTP.
 .
 A program is verified before it runs: an accepted one can't read outside its
 frame and the record, or run forever.
END
}

python_control() {
    cat << END
Package: python3-tigerline
Source: extractd
Version: $version
Architecture: all
Maintainer: $maintainer
Installed-Size: $(size "$python_root")
Depends: python3 (>= 3.11), extractd (= $version)
Recommends: python3-geopandas, gdal-bin
Suggests: python3-matplotlib, python3-jinja2, python3-waitress, libjs-leaflet, python3-distributed
Section: python
Priority: optional
Description: street segments of TIGER/Line 2006 as data frames and GIS files
 The command tigerline writes selections of extractd to files for a GIS, draws
 maps, finds addresses, and serves segments over HTTP as OGC API Features. The
 Python package of the same name returns them as data frames of geopandas.
END
}

# The units aren't enabled, since they need a county's files first.
scripts() {
    cat > "$root/DEBIAN/postinst" << 'END'
#!/bin/sh
set -e
if [ "$1" = configure ] && [ -z "${DPKG_ROOT:-}" ]; then
    deb-systemd-helper update-state extractd.service > /dev/null || true
    if [ -d /run/systemd/system ]; then
        systemctl --system daemon-reload > /dev/null || true
        [ -z "$2" ] || deb-systemd-invoke try-restart extractd.service 'extractd@*.service' > /dev/null || true
    fi
fi
END
    cat > "$root/DEBIAN/prerm" << 'END'
#!/bin/sh
set -e
if [ "$1" = remove ] && [ -z "${DPKG_ROOT:-}" ] && [ -d /run/systemd/system ]; then
    deb-systemd-invoke stop extractd.service 'extractd@*.service' > /dev/null || true
fi
END
    cat > "$root/DEBIAN/postrm" << 'END'
#!/bin/sh
set -e
if [ "$1" = purge ] && [ -z "${DPKG_ROOT:-}" ] && command -v deb-systemd-helper > /dev/null; then
    deb-systemd-helper purge extractd.service > /dev/null || true
    rm -f /etc/systemd/system/multi-user.target.wants/extractd@*.service
fi
if [ "$1" = remove ] && [ -z "${DPKG_ROOT:-}" ] && [ -d /run/systemd/system ]; then
    systemctl --system daemon-reload > /dev/null || true
fi
END
}

# Python compiles the modules when the package is configured, and so removes them with it.
python_scripts() {
    cat > "$python_root/DEBIAN/postinst" << 'END'
#!/bin/sh
set -e
if [ "$1" = configure ] && [ -z "${DPKG_ROOT:-}" ] && command -v py3compile > /dev/null; then
    py3compile -p python3-tigerline
fi
END
    cat > "$python_root/DEBIAN/prerm" << 'END'
#!/bin/sh
set -e
if [ -z "${DPKG_ROOT:-}" ] && command -v py3clean > /dev/null; then
    py3clean -p python3-tigerline
fi
END
}

# pack ROOT FILE: packs a root whose control file and scripts are there.
pack() {
    (cd "$1" && find usr -type f -print0 | sort -z | xargs -0 md5sum) > "$1/DEBIAN/md5sums"
    chmod 755 "$1"/DEBIAN/p*
    chmod 644 "$1/DEBIAN/control" "$1/DEBIAN/md5sums"
    dpkg-deb --root-owner-group -Zxz --build "$1" "$2" > "$scratch/said" || fail "$(tail -n 1 "$scratch/said")"
}

stage
mkdir "$root/DEBIAN" "$python_root/DEBIAN"
depends=$(depends)
[ -n "$depends" ] || fail "$program: the packages of its libraries can't be found"
scripts
python_scripts
control > "$root/DEBIAN/control"
python_control > "$python_root/DEBIAN/control"
# A package appears completely or not at all.
partial=$(mktemp -d "$folder/.extractd.XXXXXX")
trap 'rm -rf "$scratch" "$partial"' EXIT
pack "$root" "$partial/extractd_${version}_amd64.deb"
pack "$python_root" "$partial/python3-tigerline_${version}_all.deb"
chmod 644 "$partial"/*.deb
mv "$partial"/*.deb "$folder"
