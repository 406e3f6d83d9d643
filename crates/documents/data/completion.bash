# Completes the words after `loom` or `./loom` in bash, from its commands, options and numbers, and else from the files that there are.
# Use: source completion.bash

_loom() {
    local word=${COMP_WORDS[COMP_CWORD]} before=${COMP_WORDS[COMP_CWORD - 1]} words=
    local commands="run follow replay check graph format sql encode decode kinds explain help"
    if [ "$COMP_CWORD" -eq 1 ]; then
        words="$commands --build --version --help"
    elif [ "$before" = --workers ]; then
        words=$(seq 1 64)
    elif [ "$before" = --heap ]; then
        words="64 4096 65536 1048576 16777216"
    elif [ "${COMP_WORDS[1]}" = explain ]; then
        words="$(seq 1 6) $(seq 11 47) $(seq 51 57) $(seq 61 67) --help"
    elif [ "${COMP_WORDS[1]}" = help ]; then
        words=$commands
    elif [[ $word == -* ]]; then
        case ${COMP_WORDS[1]} in
        run) words="--workers --watch --stats --dot --end-mark --schema --dictionary --output --explain --inline --help" ;;
        follow) words="--workers --first-epoch --end-mark --schema --dictionary --output --explain --inline --help" ;;
        replay) words="--workers --views --explain --inline --help" ;;
        check) words="--heap --schema --explain --inline --help" ;;
        graph) words="--dot --heap --explain --inline --help" ;;
        format) words="--explain --inline --help" ;;
        sql) words="--with --wrapped --epochs --dialect --output --explain --inline --help" ;;
        encode) words="--dictionary --end-mark --help" ;;
        decode) words="--dictionary --output --help" ;;
        esac
    else
        compopt -o filenames 2>/dev/null
        mapfile -t COMPREPLY < <(compgen -f -- "$word")
        return
    fi
    mapfile -t COMPREPLY < <(compgen -W "$words" -- "$word")
}

complete -F _loom loom
