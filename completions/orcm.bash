# Completions of orcm for bash: source this file.
_orcm() {
    local word=${COMP_WORDS[COMP_CWORD]} before=${COMP_WORDS[COMP_CWORD - 1]} front=''
    COMPREPLY=()
    # bash splits `--rle=2` into three words, if COMP_WORDBREAKS has `=`; the last may be empty and then isn't there
    if [ "$word" = '=' ]; then
        word=''
    elif [ "$before" = '=' ]; then
        before=${COMP_WORDS[COMP_CWORD - 2]}
    elif [[ $word == --*=* ]]; then
        before=${word%%=*} front=${word%%=*}= word=${word#*=}
    fi
    case $before in
        --rle) mapfile -t COMPREPLY < <(compgen -W '1 2' -P "$front" -- "$word"); return ;;
        --sign) mapfile -t COMPREPLY < <(compgen -W 's u' -P "$front" -- "$word"); return ;;
        --schema | --stride | --stripe-rows | --from) return ;;
    esac
    if [ "$COMP_CWORD" -eq 1 ]; then
        mapfile -t COMPREPLY < <(compgen -W 'ints rows show check write merge help -h --help -V --version' -- "$word")
        return
    fi
    if [ "${COMP_WORDS[1]}" = help ]; then
        mapfile -t COMPREPLY < <(compgen -W 'rows show check write merge ints' -- "$word")
        return
    fi
    local options='-h --help'
    case ${COMP_WORDS[1]} in
        ints) options='--rle --sign -h --help' ;;
        rows) options='--from --progress -h --help' ;;
        check | merge) options='--progress -h --help' ;;
        write) options='--schema --rle --stride --stripe-rows --progress -h --help' ;;
    esac
    case $word in
        -*) mapfile -t COMPREPLY < <(compgen -W "$options" -- "$word") ;;
        *) mapfile -t COMPREPLY < <(compgen -f -- "$word") ;;
    esac
}
complete -o filenames -F _orcm orcm
