# Completes the command line of extractd in bash 4.4 or later.

# Prints the options of a command, or those of extractd itself without a command.
_extractd_options() {
    case $1 in
    '') echo --help --version ;;
    select) echo --where --filter-lang --score --data --format --columns --geometry --help ;;
    compile) echo --filter --filter-lang --score --help ;;
    run) echo --program --data --format --columns --geometry --help ;;
    trace) echo --program --data --line --limit --help ;;
    geocode) echo --data --number --name --zip --help ;;
    geocode-batch) echo --addresses --data --shape --help ;;
    verify | dis) echo --program --help ;;
    explain) echo --program --lines --help ;;
    asm) echo --source --help ;;
    serve) echo --data --port --any-port --host --public --log --help ;;
    esac
}

# Prints the codes of the counties in a folder.
_extractd_codes() {
    local file
    for file in "${1/#\~/$HOME}"/TGR[0-9][0-9][0-9][0-9][0-9].RT1; do
        [ -e "$file" ] || continue
        file=${file##*/TGR}
        echo "${file%.RT1}"
    done
}

_extractd() {
    local current=${COMP_WORDS[COMP_CWORD]} previous=${COMP_WORDS[COMP_CWORD - 1]} command='' data=. given=' ' words='' before='' index word
    # Bash splits --data=DIR into words, and = is one of them.
    if [ "$current" = = ]; then
        current=
    elif [ "$previous" = = ]; then
        previous=${COMP_WORDS[COMP_CWORD - 2]}
    fi
    for ((index = 1; index < COMP_CWORD; index++)); do
        word=${COMP_WORDS[index]}
        [ -n "$command" ] || [[ $word == -* ]] || command=$word
        given+="$word "
        if [ "$word" = --data ]; then
            [ "${COMP_WORDS[index + 1]}" != = ] || index=$((index + 1))
            data=${COMP_WORDS[index + 1]}
        fi
    done

    COMPREPLY=()
    case $previous in
    --program | --filter | --addresses | --lines | --source)
        compopt -o filenames
        mapfile -t COMPREPLY < <(compgen -f -- "$current")
        return
        ;;
    --data)
        compopt -o filenames
        mapfile -t COMPREPLY < <(compgen -d -- "$current")
        return
        ;;
    --score)
        words='TLID FRADDL TOADDL FRADDR TOADDR ZIPL ZIPR STATEL STATER COUNTYL COUNTYR PLACEL PLACER TRACTL TRACTR BLOCKL BLOCKR
            FRLONG FRLAT TOLONG TOLAT'
        mapfile -t COMPREPLY < <(compgen -W "$words" -- "${current^^}")
        return
        ;;
    --filter-lang)
        mapfile -t COMPREPLY < <(compgen -W 'cql2-text cql2-json' -- "$current")
        return
        ;;
    --format)
        mapfile -t COMPREPLY < <(compgen -W 'rows csv geojsonseq' -- "$current")
        return
        ;;
    --geometry)
        mapfile -t COMPREPLY < <(compgen -W 'none line shape' -- "$current")
        return
        ;;
    --columns)
        words='RT VERSION TLID SIDE1 SOURCE FEDIRP FENAME FETYPE FEDIRS CFCC FRADDL TOADDL FRADDR TOADDR
            FRADDL_TEXT TOADDL_TEXT FRADDR_TEXT TOADDR_TEXT FRIADDL TOIADDL FRIADDR TOIADDR
            ZIPL ZIPR STATEL STATER COUNTYL COUNTYR COUSUBL COUSUBR PLACEL PLACER TRACTL TRACTR BLOCKL BLOCKR FRLONG FRLAT TOLONG TOLAT'
        # The last name of the list is completed.
        compopt -o nospace
        word=${current##*,}
        before=${current%"$word"}
        mapfile -t COMPREPLY < <(compgen -P "$before" -W "$words" -- "${word^^}")
        return
        ;;
    --where | --number | --name | --zip | --line | --limit | --port | --host) return ;;
    esac

    if [[ $current == -* ]]; then
        # An option is accepted only once.
        for word in $(_extractd_options "$command"); do
            [[ $given == *" $word "* ]] || words+=" $word"
        done
    elif [ -z "$command" ]; then
        words='select compile run trace geocode geocode-batch verify explain asm dis serve'
    else
        case $command in
        select | run | trace | geocode | geocode-batch | serve)
            for word in $(_extractd_codes "$data"); do
                [[ $given == *" $word "* ]] || words+=" $word"
            done
            ;;
        esac
    fi
    mapfile -t COMPREPLY < <(compgen -W "$words" -- "$current")
}

complete -F _extractd extractd
