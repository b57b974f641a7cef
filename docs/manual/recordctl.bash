# Written by tools/manual from the program's help: completion for bash.
_recordctl() {
    local word=${COMP_WORDS[COMP_CWORD]} options=
    if [ "$COMP_CWORD" -eq 1 ]; then
        COMPREPLY=($(compgen -W "run check explain pack unpack race simulate shell log --help --version" -- "$word"))
        return
    fi
    case ${COMP_WORDS[1]} in
    run) options="--echo --names --svg --data" ;;
    check) options="" ;;
    explain) options="--line --tree --svg" ;;
    pack) options="" ;;
    unpack) options="" ;;
    race) options="" ;;
    simulate) options="--seed --clients --steps --run --svg" ;;
    shell) options="--echo --json --data" ;;
    log) options="" ;;
    esac
    case $word in
    -*) COMPREPLY=($(compgen -W "$options --help" -- "$word")) ;;
    *) COMPREPLY=($(compgen -f -- "$word")) ;;
    esac
}
complete -o filenames -F _recordctl recordctl
