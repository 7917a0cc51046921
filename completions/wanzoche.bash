# Completion of wanzoche for bash, made by completions/make_completions from the command's parser: don't change it here.
#
# It lies as `wanzoche` in share/bash-completion/completions, or is sourced by ~/.bashrc.

# The operations of the declaration or the store that the words name.
_wanzoche_operations() {
    local named=()
    if [ -n "$declaration" ]; then named+=(--declaration "$declaration"); fi
    if [ -n "$store" ]; then named+=(--store "$store"); fi
    "${COMP_WORDS[0]}" operations "${named[@]}" 2> /dev/null
}

_wanzoche() {
    local word=${COMP_WORDS[COMP_CWORD]} commands='exec status log audit watch view recover pass operations' options='' wants='' store='' declaration='' behind=0 n it
    COMPREPLY=()
    case ${COMP_WORDS[1]} in
    exec) options=' --help --store --name --declaration --timeout --nonblock --conflict-status --token-env --every --passed --failed --quiet --lost --no-sync ' ;;
    status) options=' --help --store --name --declaration --json --watch ' ;;
    log) options=' --help --store --name --declaration ' ;;
    audit) options=' --help --store --name --declaration ' ;;
    watch) options=' --help --store --name --declaration ' ;;
    view) options=' --help --store --name --declaration --port --open ' ;;
    recover) options=' --help --store --name --declaration --even-alive ' ;;
    pass) options=' --help --store --name --declaration --timeout ' ;;
    operations) options=' --help --store --name --declaration ' ;;
    esac
    if [[ $COMP_CWORD -eq 1 ]]; then
        if [[ $word == -* ]]; then commands='--help --version'; fi
        COMPREPLY=($(compgen -W "$commands" -- "$word"))
        return
    fi

    # What the words before the cursor leave. Where --store=file is typed, bash sees three words.
    for ((n = 2; n < COMP_CWORD && behind == 0; n++)); do
        it=${COMP_WORDS[n]}
        if [ "$it" = = ]; then continue; fi
        if [ -n "$wants" ]; then
            it=${it//[\\\"\']/}
            it=${it/#\~\//$HOME/}
            case $wants in
            --declaration) declaration=$it ;;
            --store) store=$it ;;
            esac
            wants='' && continue
        fi
        options=${options/ $it / }
        case $it in
        --conflict-status | --declaration | --every | --failed | --lost | --name | --passed | --port | --store | --timeout | --token-env) wants=$it ;;
        -*) ;;
        *) behind=$((n + 1)) ;;
        esac
    done

    # `default` lets bash complete a file.
    case $wants in
    --declaration | --store) compopt -o default && return ;;
    --failed | --passed) COMPREPLY=($(compgen -W "$(_wanzoche_operations)" -- "$word")) && return ;;
    --lost) COMPREPLY=($(compgen -W 'finish keep' -- "$word")) && return ;;
    ?*) return ;;
    esac
    if [[ $behind -gt 0 ]]; then
        if [[ ${COMP_WORDS[1]} != exec ]]; then return; fi
        if [[ $COMP_CWORD -eq $behind ]]; then
            COMPREPLY=($(compgen -W -- -- "$word"))
        elif [[ $COMP_CWORD -eq $((behind + 1)) && ${COMP_WORDS[behind]} == -- ]]; then
            COMPREPLY=($(compgen -c -- "$word"))
        else
            compopt -o default
        fi
    elif [[ $word == -* ]]; then
        COMPREPLY=($(compgen -W "$options" -- "$word"))
    elif [[ ${COMP_WORDS[1]} == exec || ${COMP_WORDS[1]} == pass ]]; then
        COMPREPLY=($(compgen -W "$(_wanzoche_operations)" -- "$word"))
    fi
}
complete -F _wanzoche wanzoche
