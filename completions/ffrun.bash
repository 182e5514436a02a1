# Completes the words of ffrun in bash.
_ffrun() {
    local current=${COMP_WORDS[COMP_CWORD]} before=${COMP_WORDS[COMP_CWORD - 1]} options values
    COMPREPLY=()
    if [ "$COMP_CWORD" = 1 ]; then
        mapfile -t COMPREPLY < <(compgen -W 'run check plan mdf soak' -- "$current")
        return
    fi
    case $before in
    -f | --file | --rejects)
        mapfile -t COMPREPLY < <(compgen -f -- "$current")
        compopt -o filenames 2>/dev/null
        return ;;
    --queue) values='ring chain' ;;
    --cap) values='1 64 512 4096' ;;
    --tasks) values='1000000 10000000' ;;
    --workers)
        values='1 2 4 8 16'
        [ "${COMP_WORDS[1]}" = mdf ] && values="$values 32 64" ;;
    esac
    case ${COMP_WORDS[1]} in
    run) options='--file --one --sweep --rejects --tasks --cap --queue' ;;
    check | plan) options='--file' ;;
    mdf) options='--file --workers' ;;
    soak) options='--workers --cap --queue' ;;
    esac
    if [ -n "$values" ]; then
        mapfile -t COMPREPLY < <(compgen -W "$values" -- "$current")
    elif [[ $current == -* ]]; then
        mapfile -t COMPREPLY < <(compgen -W "$options" -- "$current")
    fi
}
complete -F _ffrun ffrun ./ffrun
