# Completion of pathsys for bash, made by completions/make_completions from the program's help: don't change it here.
#
# It lies as `pathsys` in share/bash-completion/completions, or is sourced by ~/.bashrc.

_pathsys() {
    local word=${COMP_WORDS[COMP_CWORD]} commands='check compile trace explain follow picture audit run explore help' options='' wants='' files=0 first=2 n it
    COMPREPLY=()
    case ${COMP_WORDS[1]} in
    check) files=1 options=' --help ' ;;
    compile) files=1 options=' --help ' ;;
    trace) files=2 options=' --room --report --after --help ' ;;
    explain) files=2 options=' --journal --room --after --help ' ;;
    follow) files=1 options=' --room --journal --sync --help ' ;;
    picture) files=2 options=' --journal --room --help ' ;;
    audit) files=999 options=' --room --help ' ;;
    run) files=2 options=' --room --help ' ;;
    explore) files=2 options=' --workers --most --help ' ;;
    -*) first=1 options=' --room --report --help --version ' ;;
    esac
    if [[ $COMP_CWORD -eq 1 && $word != -* || $COMP_CWORD -eq 2 && ${COMP_WORDS[1]} == help ]]; then
        COMPREPLY=($(compgen -W "$commands" -- "$word"))
        return
    fi

    # What the words before the cursor leave. Where --room=4 is typed, bash sees three words.
    for ((n = first; n < COMP_CWORD; n++)); do
        it=${COMP_WORDS[n]}
        if [ "$it" = = ]; then continue; fi
        case $wants:$it in
        :* | --after:-*) wants='' ;;
        --after:*) continue ;;
        *) wants='' && continue ;;
        esac
        options=${options/ ${it%%=*} / }
        case $it in
        --after | --journal | --most | --room | --sync | --workers) wants=$it ;;
        esac
        case $it in
        --journal | --journal=*) files=$((files - 1)) ;;
        -*) ;;
        *) files=$((files - 1)) ;;
        esac
    done

    # An option in the place of a file needs one that is left. `default` lets bash complete a file.
    if [ "$files" -le 0 ]; then options=${options/ --journal / }; fi
    case $wants:$word in
    --after:-*) wants='' ;;
    esac
    case $wants in
    --after | --journal) compopt -o default ;;
    '')
        if [[ $word == -* ]]; then
            COMPREPLY=($(compgen -W "$options" -- "$word"))
        elif [ "$files" -gt 0 ]; then
            compopt -o default
        fi
        ;;
    esac
}
complete -F _pathsys pathsys
