# Completion of wanzoche for fish, made by completions/make_completions from the command's parser: don't change it here.
#
# It lies in share/fish/vendor_completions.d, or in ~/.config/fish/completions.

function __wanzoche_is --argument-names command --description 'whether the first word is this command, or none if none is named'
    set -l words (commandline -opc)
    if test -z "$command"
        test (count $words) -eq 1
    else
        test (count $words) -gt 1; and test $words[2] = $command
    end
end

function __wanzoche_lacks --argument-names option --description 'whether this option is still to come'
    set -l words (commandline -opc)
    if contains -- $words[-1] --conflict-status --declaration --every --failed --lost --name --passed --port --store --timeout --token-env
        set -e words[-1]
    end
    not contains -- $option $words; and not string match -q -- "$option=*" $words
end

function __wanzoche_value --argument-names option --description 'the value of this option in the words before the cursor'
    set -l before ''
    for word in (commandline -opc)
        if test "$before" = $option
            echo $word
        else
            string replace -f -- "$option=" '' $word
        end
        set before $word
    end
end

function __wanzoche_behind --description 'the words behind the operation of exec or pass; fails if there is none yet'
    set -l words (commandline -opc)
    set -e words[1..2]
    set -l is_value 0
    while set -q words[1]
        set -l word $words[1]
        set -e words[1]
        if test $is_value -eq 1
            set is_value 0
        else if contains -- $word --conflict-status --declaration --every --failed --lost --name --passed --port --store --timeout --token-env
            set is_value 1
        else if not string match -q -- '-*' $word
            string join \n -- $words
            return 0
        end
    end
    return 1
end

function __wanzoche_wants --argument-names part --description 'whether the operation, or the mark -- or the command of exec comes next'
    if not __wanzoche_is exec
        test $part = operation; and __wanzoche_is pass; or return 1
    end
    set -l behind (__wanzoche_behind)
    set -l has_operation $status
    switch $part
        case operation
            test $has_operation -ne 0
        case mark
            test $has_operation -eq 0; and test (count $behind) -eq 0
        case command
            test $has_operation -eq 0; and test (count $behind) -gt 0
    end
end

function __wanzoche_operations --description 'the operations of the declaration or the store that the words name'
    set -l named
    for option in --declaration --store
        set -l value (__wanzoche_value $option | string replace -r '^~/' "$HOME/")
        test -n "$value"; and set -a named $option $value[1]
    end
    wanzoche operations $named 2>/dev/null
end

function __wanzoche_command --description 'what is offered for the command behind --'
    set -l words (__wanzoche_behind)
    if test "$words[1]" = --
        set -e words[1]
    end
    complete -C (string join ' ' -- (string escape -- $words) (commandline -ct))
end

complete -c wanzoche -f
complete -c wanzoche -n __wanzoche_is -a exec -d 'run a command as an operation'
complete -c wanzoche -n __wanzoche_is -a status -d 'say what can be started, which path blocks what, what is in progress, and what of it is a dead worker\'s'
complete -c wanzoche -n __wanzoche_is -a log -d 'write the lines of the journal'
complete -c wanzoche -n __wanzoche_is -a audit -d 'say whether each reply in the journal was owed'
complete -c wanzoche -n __wanzoche_is -a watch -d 'write the lines of the journal as they come'
complete -c wanzoche -n __wanzoche_is -a view -d 'serve a page to browsers of this machine that shows how the store is, and write its address'
complete -c wanzoche -n __wanzoche_is -a recover -d 'finish what a dead worker has in progress'
complete -c wanzoche -n __wanzoche_is -a pass -d 'begin an operation and end it at once, so that the paths go on to what stands behind it'
complete -c wanzoche -n __wanzoche_is -a operations -d 'write the operations that are declared, one in a line'
complete -c wanzoche -n '__wanzoche_is; and __wanzoche_lacks --help' -s h -l help -d 'show this help message and exit'
complete -c wanzoche -n '__wanzoche_is; and __wanzoche_lacks --version' -l version -d 'print the version'
complete -c wanzoche -n '__wanzoche_wants operation' -a '(__wanzoche_operations)'
complete -c wanzoche -n '__wanzoche_wants mark' -a --
complete -c wanzoche -n '__wanzoche_wants command' -a '(__wanzoche_command)'
complete -c wanzoche -n '__wanzoche_is exec; and __wanzoche_wants operation; and __wanzoche_lacks --help' -s h -l help -d 'show this help message and exit'
complete -c wanzoche -n '__wanzoche_is exec; and __wanzoche_wants operation; and __wanzoche_lacks --store' -l store -r -F -d 'the file of the journal that the processes share, or the URL of a PostgreSQL database'
complete -c wanzoche -n '__wanzoche_is exec; and __wanzoche_wants operation; and __wanzoche_lacks --name' -l name -x -d 'the name of the log, of a store in PostgreSQL'
complete -c wanzoche -n '__wanzoche_is exec; and __wanzoche_wants operation; and __wanzoche_lacks --declaration' -l declaration -r -F -d 'the file of the declaration, for a store that isn\'t there yet; else it has to be the store\'s'
complete -c wanzoche -n '__wanzoche_is exec; and __wanzoche_wants operation; and __wanzoche_lacks --timeout' -l timeout -x -d 'don\'t wait for longer than that for the operation\'s turn'
complete -c wanzoche -n '__wanzoche_is exec; and __wanzoche_wants operation; and __wanzoche_lacks --nonblock' -l nonblock -d 'don\'t wait for the operation\'s turn'
complete -c wanzoche -n '__wanzoche_is exec; and __wanzoche_wants operation; and __wanzoche_lacks --conflict-status' -l conflict-status -x -d 'the status where the operation isn\'t admitted in time (1)'
complete -c wanzoche -n '__wanzoche_is exec; and __wanzoche_wants operation; and __wanzoche_lacks --token-env' -l token-env -x -d 'the variable in which the command gets the operation\'s token'
complete -c wanzoche -n '__wanzoche_is exec; and __wanzoche_wants operation; and __wanzoche_lacks --every' -l every -x -d 'run it at most once in that time, as 15m, 23h or 7d, whoever asks; else it is a conflict. The resource\'s cell keeps the time'
complete -c wanzoche -n '__wanzoche_is exec; and __wanzoche_wants operation; and __wanzoche_lacks --passed' -l passed -x -d 'the operation that begins and ends behind a command that succeeded' -a '(__wanzoche_operations)'
complete -c wanzoche -n '__wanzoche_is exec; and __wanzoche_wants operation; and __wanzoche_lacks --failed' -l failed -x -d 'the same behind one that failed: that ended with another status than 0, by a signal, or that couldn\'t be run' -a '(__wanzoche_operations)'
complete -c wanzoche -n '__wanzoche_is exec; and __wanzoche_wants operation; and __wanzoche_lacks --quiet' -l quiet -d 'say nothing of what it waits for, nor where the operation isn\'t admitted in time'
complete -c wanzoche -n '__wanzoche_is exec; and __wanzoche_wants operation; and __wanzoche_lacks --lost' -l lost -x -a 'finish keep' -d 'what happens to an operation in the way whose process is dead: it is finished, or kept until `recover` (what a log has; finish)'
complete -c wanzoche -n '__wanzoche_is exec; and __wanzoche_wants operation; and __wanzoche_lacks --no-sync' -l no-sync -d 'don\'t wait for the disk'
complete -c wanzoche -n '__wanzoche_is status; and __wanzoche_lacks --help' -s h -l help -d 'show this help message and exit'
complete -c wanzoche -n '__wanzoche_is status; and __wanzoche_lacks --store' -l store -r -F -d 'the file of the journal that the processes share, or the URL of a PostgreSQL database'
complete -c wanzoche -n '__wanzoche_is status; and __wanzoche_lacks --name' -l name -x -d 'the name of the log, of a store in PostgreSQL'
complete -c wanzoche -n '__wanzoche_is status; and __wanzoche_lacks --declaration' -l declaration -r -F -d 'the file of the declaration, for a store that isn\'t there yet; else it has to be the store\'s'
complete -c wanzoche -n '__wanzoche_is status; and __wanzoche_lacks --json' -l json -d 'as one line of JSON'
complete -c wanzoche -n '__wanzoche_is status; and __wanzoche_lacks --watch' -l watch -d 'go on, and say it again when it has changed; look for what has died at least each so many seconds (1)'
complete -c wanzoche -n '__wanzoche_is log; and __wanzoche_lacks --help' -s h -l help -d 'show this help message and exit'
complete -c wanzoche -n '__wanzoche_is log; and __wanzoche_lacks --store' -l store -r -F -d 'the file of the journal that the processes share, or the URL of a PostgreSQL database'
complete -c wanzoche -n '__wanzoche_is log; and __wanzoche_lacks --name' -l name -x -d 'the name of the log, of a store in PostgreSQL'
complete -c wanzoche -n '__wanzoche_is log; and __wanzoche_lacks --declaration' -l declaration -r -F -d 'the file of the declaration, for a store that isn\'t there yet; else it has to be the store\'s'
complete -c wanzoche -n '__wanzoche_is audit; and __wanzoche_lacks --help' -s h -l help -d 'show this help message and exit'
complete -c wanzoche -n '__wanzoche_is audit; and __wanzoche_lacks --store' -l store -r -F -d 'the file of the journal that the processes share, or the URL of a PostgreSQL database'
complete -c wanzoche -n '__wanzoche_is audit; and __wanzoche_lacks --name' -l name -x -d 'the name of the log, of a store in PostgreSQL'
complete -c wanzoche -n '__wanzoche_is audit; and __wanzoche_lacks --declaration' -l declaration -r -F -d 'the file of the declaration, for a store that isn\'t there yet; else it has to be the store\'s'
complete -c wanzoche -n '__wanzoche_is watch; and __wanzoche_lacks --help' -s h -l help -d 'show this help message and exit'
complete -c wanzoche -n '__wanzoche_is watch; and __wanzoche_lacks --store' -l store -r -F -d 'the file of the journal that the processes share, or the URL of a PostgreSQL database'
complete -c wanzoche -n '__wanzoche_is watch; and __wanzoche_lacks --name' -l name -x -d 'the name of the log, of a store in PostgreSQL'
complete -c wanzoche -n '__wanzoche_is watch; and __wanzoche_lacks --declaration' -l declaration -r -F -d 'the file of the declaration, for a store that isn\'t there yet; else it has to be the store\'s'
complete -c wanzoche -n '__wanzoche_is view; and __wanzoche_lacks --help' -s h -l help -d 'show this help message and exit'
complete -c wanzoche -n '__wanzoche_is view; and __wanzoche_lacks --store' -l store -r -F -d 'the file of the journal that the processes share, or the URL of a PostgreSQL database'
complete -c wanzoche -n '__wanzoche_is view; and __wanzoche_lacks --name' -l name -x -d 'the name of the log, of a store in PostgreSQL'
complete -c wanzoche -n '__wanzoche_is view; and __wanzoche_lacks --declaration' -l declaration -r -F -d 'the file of the declaration, for a store that isn\'t there yet; else it has to be the store\'s'
complete -c wanzoche -n '__wanzoche_is view; and __wanzoche_lacks --port' -l port -x -d 'the port of 127.0.0.1 on which it is served; else a free one'
complete -c wanzoche -n '__wanzoche_is view; and __wanzoche_lacks --open' -l open -d 'open the page in a browser'
complete -c wanzoche -n '__wanzoche_is recover; and __wanzoche_lacks --help' -s h -l help -d 'show this help message and exit'
complete -c wanzoche -n '__wanzoche_is recover; and __wanzoche_lacks --store' -l store -r -F -d 'the file of the journal that the processes share, or the URL of a PostgreSQL database'
complete -c wanzoche -n '__wanzoche_is recover; and __wanzoche_lacks --name' -l name -x -d 'the name of the log, of a store in PostgreSQL'
complete -c wanzoche -n '__wanzoche_is recover; and __wanzoche_lacks --declaration' -l declaration -r -F -d 'the file of the declaration, for a store that isn\'t there yet; else it has to be the store\'s'
complete -c wanzoche -n '__wanzoche_is recover; and __wanzoche_lacks --even-alive' -l even-alive -d 'also if it is alive: then it loses what it has'
complete -c wanzoche -n '__wanzoche_is pass; and __wanzoche_lacks --help' -s h -l help -d 'show this help message and exit'
complete -c wanzoche -n '__wanzoche_is pass; and __wanzoche_lacks --store' -l store -r -F -d 'the file of the journal that the processes share, or the URL of a PostgreSQL database'
complete -c wanzoche -n '__wanzoche_is pass; and __wanzoche_lacks --name' -l name -x -d 'the name of the log, of a store in PostgreSQL'
complete -c wanzoche -n '__wanzoche_is pass; and __wanzoche_lacks --declaration' -l declaration -r -F -d 'the file of the declaration, for a store that isn\'t there yet; else it has to be the store\'s'
complete -c wanzoche -n '__wanzoche_is pass; and __wanzoche_lacks --timeout' -l timeout -x -d 'wait so long for the operation\'s turn; else it is passed now or not at all'
complete -c wanzoche -n '__wanzoche_is operations; and __wanzoche_lacks --help' -s h -l help -d 'show this help message and exit'
complete -c wanzoche -n '__wanzoche_is operations; and __wanzoche_lacks --store' -l store -r -F -d 'the file of the journal that the processes share, or the URL of a PostgreSQL database'
complete -c wanzoche -n '__wanzoche_is operations; and __wanzoche_lacks --name' -l name -x -d 'the name of the log, of a store in PostgreSQL'
complete -c wanzoche -n '__wanzoche_is operations; and __wanzoche_lacks --declaration' -l declaration -r -F -d 'the file of the declaration, in place of a store\'s'
