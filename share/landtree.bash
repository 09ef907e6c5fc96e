# Completion of landtree's words in bash. ./install puts this file where bash-completion finds it.
_landtree() {
    local word=${COMP_WORDS[COMP_CWORD]} before=${COMP_WORDS[COMP_CWORD - 1]} options
    if [ "$COMP_CWORD" -eq 1 ]; then
        options="run audit schedule rights why learn check serve export help --explain --terse --help --version"
        mapfile -t COMPREPLY < <(compgen -W "$options" -- "$word")
        return
    fi
    case $before in
    --policy | --diff | --save | --picture)
        mapfile -t COMPREPLY < <(compgen -f -- "$word")
        return
        ;;
    --abi)
        mapfile -t COMPREPLY < <(compgen -W "1 2 3" -- "$word")
        return
        ;;
    --as)
        local forms="c json"
        case ${COMP_WORDS[1]} in
        check) forms="tap junit json" ;;
        rights | why) forms=json ;;
        esac
        mapfile -t COMPREPLY < <(compgen -W "$forms" -- "$word")
        return
        ;;
    --deny)
        mapfile -t COMPREPLY < <(compgen -W "tcp ioctl_dev signal abstract_unix_socket" -- "$word")
        return
        ;;
    --root | --also | --beneath)
        mapfile -t COMPREPLY < <(compgen -d -- "$word")
        return
        ;;
    --history)
        # Of learn it is a file, of other commands a number.
        if [ "${COMP_WORDS[1]}" = learn ]; then
            mapfile -t COMPREPLY < <(compgen -f -- "$word")
        fi
        return
        ;;
    --nodes | --from | --to | --profile | --port | --workers | --connections | --idle | --room | --client | --name | --never | --most) return ;;
    esac
    case ${COMP_WORDS[1]} in
    run) options="--nodes --abi --history --policy --profile --save --strict --comments --explain --terse --help" ;;
    audit) options="--explain --terse --help" ;;
    schedule) options="--nodes --abi --history --picture --from --to --strict --explain --terse --help" ;;
    rights) options="--policy --profile --all-profiles --diff --nodes --layers --as --explain --terse --help" ;;
    why) options="--policy --profile --nodes --as --explain --terse --help" ;;
    learn) options="--policy --history --client --name --never --beneath --most --nodes --explain --terse --help" ;;
    check) options="--nodes --abi --policy --profile --quiet --verbose --as --schedule --explain --terse --help" ;;
    serve)
        options="--port --workers --connections --idle --room --log --nodes --abi --history --policy --profile --save --explain --terse --help"
        ;;
    export)
        options="--policy --profile --as --root --also --follow --deny --best-effort --checked --explain --terse --help"
        ;;
    help) options="run audit schedule rights why learn check serve export" ;;
    *) return ;;
    esac
    case $word in
    -*) mapfile -t COMPREPLY < <(compgen -W "$options" -- "$word") ;;
    *)
        [ "${COMP_WORDS[1]}" = help ] || options=
        mapfile -t COMPREPLY < <(compgen -W "$options" -- "$word")
        mapfile -t -O "${#COMPREPLY[@]}" COMPREPLY < <(compgen -f -- "$word")
        ;;
    esac
}
complete -o filenames -F _landtree landtree
