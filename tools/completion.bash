# Completion of pdscript for bash: scripts and options, then the names that the script reads, and paths behind NAME=.
_pdscript() {
    local line=${COMP_LINE:0:COMP_POINT} word before script name
    word=${line##* }
    before=${line% *}
    local -i first=1
    while case ${COMP_WORDS[first]} in --stats | --keep-going) ;; *) false ;; esac; do
        before=${before/ ${COMP_WORDS[first]}/}
        first+=1
    done
    script=${COMP_WORDS[first]}
    COMPREPLY=()
    case $word in
    *=*)
        compopt -o filenames 2>/dev/null
        mapfile -t COMPREPLY < <(compgen -f -- "${word#*=}")
        ;;
    *)
        if [ "$before" = "${COMP_WORDS[0]}" ]; then
            compopt -o filenames 2>/dev/null
            mapfile -t COMPREPLY < <(compgen -d -- "$word"; compgen -f -X '!*.pds' -- "$word")
            case $word in -*) mapfile -t COMPREPLY < <(compgen -W "--help --demo --stats --keep-going" -- "$word") ;; esac
        elif [ -f "$script" ]; then
            compopt -o nospace 2>/dev/null
            while IFS= read -r name; do
                case " $line" in *" $name="*) continue ;; esac
                case $name in "$word"*) COMPREPLY+=("$name=") ;; esac
            done < <(sed -n "s/.*read_csv(\(name=\)\{0,1\}[\"']\([^\"']*\)[\"'].*/\2/p" "$script" | sort -u)
        fi
        ;;
    esac
}
complete -F _pdscript pdscript
