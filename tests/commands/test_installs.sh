# shellcheck shell=bash
# install.sh, below folders of its own: what it installs, modes, what it removes, failures half-way, and prefixes that it refuses.
# shellcheck disable=SC2016 # case_of expands them.
# shellcheck disable=SC2154 # tests/harness/shell.sh sets `top`.

export top
cp "$(command -v extractd)" built
# Nobody but its owner may write the installed program, whatever the mode of the one that was built.
chmod 777 built
incomplete='install.sh: not everything is installed; --uninstall removes what is'

install_to() { case_of 0 0 '' "\"\$top/install.sh\" --program built $1"; }
uninstall_from() { case_of 0 0 '' "\"\$top/install.sh\" --uninstall $1"; }

files_of() { (cd "$1" && find . -type f | sort); }
# The list of what was installed isn't in itself.
table_of() { (cd "$1" && find . ! -type d ! -path ./share/extractd/installed -printf '%m %P\n' | sort -k 2); }
modes_of() { find "$1" -mindepth 1 -printf '%y %m\n' | sort -u; }

# differences EXPECTED ACTUAL: prints the lines that are in one of two files only.
differences() { diff "$1" "$2" | grep '^[<>]'; }

# Each file is a row of installed.txt, with its mode. The list of what was installed has these files, and the folders.
test_files() { # needs extractd
    local table=$top/tests/commands/installed.txt
    install_to new
    table_of new > found
    equal 'the installed files, and tests/commands/installed.txt' '' "$(differences "$table" found)"
    sed -n '/[^/]$/p' new/share/extractd/installed | sort > listed
    cut -d ' ' -f 2- "$table" | differences - listed > unlisted
    equal 'the list of installed files' '' "$(cat unlisted)"
    equal 'the list of folders' "$(cd new && find . -mindepth 1 -type d -printf '%P/\n' | sort)" "$(grep '/$' new/share/extractd/installed | sort)"
    equal 'the mode of the list' 644 "$(stat -c %a new/share/extractd/installed)"
}

# same FOLDER PATH: checks that each file below a folder is that of the sources with the same name below a path. Pages are changed.
same() {
    local file wrong=""
    while read -r file; do
        cmp -s "$1/$file" "$top/$2/$file" || wrong+="$file "
    done < <(cd "$1" && find . -type f ! -name '*.md' ! -name '*.service')
    equal "the contents of $1" '' "$wrong"
}

test_contents() { # needs extractd
    install_to new
    same new/share/doc/extractd .
    same new/lib/python3/dist-packages python
    same new/share/man/man1 deploy/packaging/man
    equal 'the program' '' "$(cmp built new/bin/extractd 2>&1)"
    equal 'the command' '' "$(cmp "$top/deploy/packaging/tigerline" new/bin/tigerline 2>&1)"
    equal 'the header' '' "$(cmp "$top/tools/c/extractd.h" new/include/extractd.h 2>&1)"
    equal 'completions for bash' '' "$(cmp "$top/deploy/packaging/completions/extractd.bash" new/share/bash-completion/completions/extractd 2>&1)"
    equal 'completions for zsh' '' "$(cmp "$top/deploy/packaging/completions/_extractd" new/share/zsh/site-functions/_extractd 2>&1)"
}

# modes_after MASK: the caller's umask doesn't count.
modes_after() {
    mkdir new
    case_of 0 0 '' "(umask $1; \"\$top/install.sh\" --program built new)"
    equal "modes after umask $1" $'d 755\nf 644\nf 755' "$(modes_of new)"
    equal "the program's mode after umask $1" 755 "$(stat -c %a new/bin/extractd)"
    equal "the manual's mode after umask $1" 644 "$(stat -c %a new/share/man/man1/extractd.1)"
}
test_umask_000() { # needs extractd
    modes_after 000
}
test_umask_022() { # needs extractd
    modes_after 022
}
test_umask_077() { # needs extractd
    modes_after 077
}
test_umask_777() { # needs extractd
    modes_after 777
}

test_units() { # needs extractd
    install_to new
    equal 'the path in the units' "$PWD/new/bin/extractd" "$(sed -n 's/^ExecStart=\([^ ]*\) .*/\1/p' new/lib/systemd/system/extractd*.service | uniq)"
}

# A link to a file that isn't installed becomes its text, and what needs a clone is left out.
test_pages() { # needs extractd python3
    local documents=new/share/doc/extractd
    install_to new
    case_of 0 '*' '' 'python3 "$top/tools/links.py" new/share/doc/extractd'
    equal 'links to sources' '' "$(grep -o '](\.\./tests[^)]*)' $documents/docs/PROOFS.md)"
    equal 'parts for a clone' '' "$(grep -r -l '<!-- .*clone -->' $documents)"
    equal 'where to try commands' 1 "$(grep -c "the top of a copy of \`$PWD/$documents\`" $documents/docs/cookbook.md)"
}

others=(bin/other share/doc/other/notes share/doc/extractd/docs/own.md share/extractd/own share/man/man1/other.1 include/other.h)
# make_others PREFIX: makes files that install.sh doesn't know.
make_others() {
    local file
    for file in "${others[@]}"; do
        mkdir -p "$1/${file%/*}"
        echo mine > "$1/$file"
    done
}

# Files of others, and folders that were there before, are left alone. Files of a version before are removed.
test_uninstalling() { # needs extractd
    mkdir -p shared/lib/systemd shared/share/zsh
    install_to shared
    make_others shared
    echo old > shared/share/doc/extractd/old.md
    echo share/doc/extractd/old.md >> shared/share/extractd/installed
    install_to shared
    equal 'a file of the version before' '' "$(find shared -name old.md)"
    uninstall_from shared
    equal 'what is left' "$(printf './%s\n' "${others[@]}" | sort)" "$(files_of shared)"
    equal 'the folders from before' '2' "$(find shared/lib/systemd shared/share/zsh -maxdepth 0 | wc -l)"
    equal 'empty folders' $'shared/lib/systemd\nshared/share/zsh' "$(find shared -type d -empty | sort)"
    case_of 1 0 "install.sh: $PWD/shared/share/extractd/installed: not found, so nothing is installed there" '"$top/install.sh" --uninstall shared'
}

# Without files of others, nothing is left.
test_uninstalling_all() { # needs extractd
    case_of 0 0 '' '"$top/install.sh" --program built alone/usr && "$top/install.sh" --uninstall alone/usr'
    equal 'what is left of it' '' "$(find alone/usr -mindepth 1)"
}

# compile_modules PREFIX: makes files like those that Python keeps next to a module.
compile_modules() {
    local file folder name
    while read -r file; do
        folder=${file%/*}/__pycache__ name=${file##*/}
        [ -d "$folder" ] || mkdir "$folder"
        : > "$folder/${name%.py}.cpython-311.pyc"
        : > "$folder/${name%.py}.cpython-311.opt-1.pyc"
    done < <(find "$1" -name '*.py')
}

# Compiled modules are removed with theirs. That of another module stays.
test_compiled_modules() { # needs extractd
    local other=lib/python3/dist-packages/tigerline/__pycache__/other.cpython-311.pyc
    install_to shared
    compile_modules shared
    equal 'whether there are compiled modules' yes "$([ "$(find shared -name '*.pyc' | wc -l)" -gt 100 ] && echo yes)"
    : > shared/$other
    uninstall_from shared
    equal 'what is left of modules' ./$other "$(files_of shared)"
    equal 'empty folders' '' "$(find shared -type d -empty)"
}

# The same with those that Python makes.
test_python() { # needs extractd python3
    install_to alone
    case_of 0 '*' '' 'python3 -m compileall -q alone/lib/python3/dist-packages'
    equal 'whether there are compiled modules' yes "$([ "$(find alone -name '*.pyc' | wc -l)" -gt 50 ] && echo yes)"
    uninstall_from alone
    equal 'what is left of modules' '' "$(find alone -mindepth 1)"
}

# is_removed PREFIX [FILE..]: checks that an installation that failed half-way can be removed. These files stay.
is_removed() {
    uninstall_from "$1"
    equal "what is left of $1" "${*:2}" "$(cd "$1" && find . -mindepth 1 ! -type d -printf '%P\n' | sort)"
}

# No file of more than 100 KiB can be written, such as the program.
test_full() { # needs extractd prlimit
    case_of 1 0 "*$incomplete" 'limited f 100 "$top/install.sh" --program built full'
    equal 'whether the program is larger' yes "$([ "$(stat -c %s built)" -gt 102400 ] && echo yes)"
    is_removed full
}

# blocks FILE: checks that an installation fails if a folder is in a file's place, and that the folder stays.
blocks() {
    mkdir -p "blocked/$1"
    case_of 1 0 "*$incomplete" '"$top/install.sh" --program built blocked'
    is_removed blocked
    equal "the folder $1" yes "$([ -d "blocked/$1" ] && echo yes)"
}
test_no_unit() { # needs extractd
    blocks lib/systemd/system/extractd@.service
}
test_no_page() { # needs extractd
    blocks share/doc/extractd/docs/http.md
}
test_header_is_a_folder() { # needs extractd
    blocks include/extractd.h
}

# A file in the place of a folder stays.
test_no_folder() { # needs extractd
    mkdir blocked
    : > blocked/include
    case_of 1 0 "*$incomplete" '"$top/install.sh" --program built blocked'
    is_removed blocked include
}

# copy_sources: makes a copy of what install.sh reads.
copy_sources() {
    mkdir -p sources
    cp -r "$top"/{README.md,CHANGELOG.md,SECURITY.md,LICENSE,docs,examples,tools,deploy,python,install.sh} sources
}

# lacks FILE: checks that an installation fails without one of its sources.
lacks() {
    copy_sources
    rm "sources/$1"
    case_of 1 0 "*$incomplete" "sources/install.sh --program built lacking"
    is_removed lacking
}
test_no_header() { # needs extractd
    lacks tools/c/extractd.h
}
test_no_completion() { # needs extractd
    lacks deploy/packaging/completions/_extractd
}

# Root reads it all, unless it gives up that right.
test_unreadable() { # needs extractd setpriv
    local right=""
    copy_sources
    chmod 000 sources/examples/job.py
    [ "$(id -u)" != 0 ] || right='setpriv --bounding-set=-dac_override,-dac_read_search --'
    equal 'whether it can be read' 1 "$($right cat sources/examples/job.py > /dev/null 2>&1; echo $?)"
    case_of 1 0 "*$incomplete" "$right sources/install.sh --program built unread"
    is_removed unread
}

# refuses FILE: checks that nothing is made without a program.
refuses() {
    case_of 1 0 "install.sh: $1: no program is there; build it, or name it by --program" "\"\$top/install.sh\" --program $1 none"
    equal "what is made of $1" '' "$(find none 2> /dev/null)"
}
test_no_program() { # needs extractd
    mkdir folder
    cp built data
    chmod 644 data
    refuses data
    refuses folder
    refuses missing
}

refused=('a b' 'a|b' 'a&b' 'a\b' "a'b" $'a\nb' 'a%b' 'ä')
# A unit's path can't have all characters.
test_refused_prefixes() { # needs extractd
    local prefix
    for prefix in "${refused[@]}"; do
        case_of 1 0 "install.sh: PREFIX has a character that a unit's path can't have" "\"\$top/install.sh\" --program built ${prefix@Q}"
        case_of 1 0 "install.sh: PREFIX has a character that a unit's path can't have" "\"\$top/install.sh\" --uninstall ${prefix@Q}"
    done
    equal 'what is made' $'built\nerr\nhome\nout' "$(ls)"
}

# A folder in DESTDIR can.
test_destination() { # needs extractd
    case_of 0 0 '' 'DESTDIR="$PWD/a b|c" "$top/install.sh" --program built /usr'
    equal 'the unit below DESTDIR' /usr/bin/extractd "$(sed -n 's/^ExecStart=\([^ ]*\) .*/\1/p' 'a b|c/usr/lib/systemd/system/extractd.service')"
    case_of 0 0 '' 'DESTDIR="$PWD/a b|c" "$top/install.sh" --uninstall /usr'
    equal 'what is left below DESTDIR' '' "$(find 'a b|c' -type f)"
}
