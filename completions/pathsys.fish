# Completion of pathsys for fish, made by completions/make_completions from the program's help: don't change it here.
#
# It lies in share/fish/vendor_completions.d, or in ~/.config/fish/completions.

function __pathsys_words --description 'the words before the cursor, without an option whose value is being typed'
    set -l words (commandline -opc)
    if contains -- $words[-1] --after --journal --most --room --sync --workers
        set -e words[-1]
    end
    string join \n -- $words
end

function __pathsys_goes_on --description 'whether the words before the cursor end with values of the option that takes several'
    set -l given 0
    for word in (commandline -opc)
        switch $word
            case --after
                set given 1
            case '-*'
                set given 0
        end
    end
    test $given -eq 1
end

function __pathsys_is --argument-names command --description 'whether the first word is this command, or an option if none is named'
    set -l words (commandline -opc)
    if test -z "$command"
        test (count $words) -eq 1; or string match -q -- '-*' $words[2]
    else
        test (count $words) -gt 1; and test $words[2] = $command
    end
end

function __pathsys_wants --argument-names command files --description 'whether this command wants one more of so many files'
    __pathsys_is $command; or return 1
    set -l words (__pathsys_words)
    set -e words[1..2]
    set -l is_value 0
    set -l are_values 0
    for word in $words
        if test $is_value -eq 1
            set is_value 0
            continue
        end
        switch $word
            case --after
                set are_values 1
                continue
            case '-*'
                set are_values 0
        end
        if test $are_values -eq 1
            continue
        end
        switch $word
            case --journal --most --room --sync --workers
                set is_value 1
        end
        switch $word
            case '--journal' '--journal=*'
                set files (math $files - 1)
            case '-*'
            case '*'
                set files (math $files - 1)
        end
    end
    test $files -gt 0
end

function __pathsys_lacks --argument-names option --description 'whether this option is still to come'
    not string match -q -- $option (__pathsys_words); and not string match -q -- "$option=*" (__pathsys_words)
end

function __pathsys_wants_command --description 'whether a command is to be named'
    set -l words (commandline -opc)
    test (count $words) -eq 1; or test (count $words) -eq 2 -a $words[2] = help
end

complete -c pathsys -f
complete -c pathsys -n __pathsys_wants_command -a check -d 'Reads a declaration and prints it'
complete -c pathsys -n __pathsys_wants_command -a compile -d 'Prints the semaphores of a declaration\'s paths, before and after trimming'
complete -c pathsys -n __pathsys_wants_command -a trace -d 'Writes each attempt of a file with its reply'
complete -c pathsys -n __pathsys_wants_command -a explain -d 'Says why attempts were refused, what a journal\'s first wrong line was owed, or where a file is at fault'
complete -c pathsys -n __pathsys_wants_command -a follow -d 'Answers each attempt from standard input before it reads the next'
complete -c pathsys -n __pathsys_wants_command -a picture -d 'Draws attempts with their replies, or a journal, as an SVG: who ran when'
complete -c pathsys -n __pathsys_wants_command -a audit -d 'Says whether a journal is sound, or names its first wrong line'
complete -c pathsys -n __pathsys_wants_command -a run -d 'Runs the processes of a script, writes the journal and says how each process ended'
complete -c pathsys -n __pathsys_wants_command -a explore -d 'Says whether every schedule of a script ends done, or without a script whether the paths can freeze'
complete -c pathsys -n __pathsys_wants_command -a help -d 'Print this message or the help of the given subcommand(s)'
complete -c pathsys -n '__pathsys_is; and __pathsys_lacks --room' -l room -x -d 'how many lines the journal has room for, 1 to 1048576; 4096 if it isn\'t given'
complete -c pathsys -n '__pathsys_is; and __pathsys_lacks --report' -l report -d 'then writes what can start, what is blocked and what is live, and whether all is stuck'
complete -c pathsys -n '__pathsys_is; and __pathsys_lacks --help' -s h -l help -d 'Print help'
complete -c pathsys -n '__pathsys_is; and __pathsys_lacks --version' -s V -l version -d 'Print version'
complete -c pathsys -n '__pathsys_wants check 1' -F
complete -c pathsys -n '__pathsys_is check; and __pathsys_lacks --help' -s h -l help -d 'Print help'
complete -c pathsys -n '__pathsys_wants compile 1' -F
complete -c pathsys -n '__pathsys_is compile; and __pathsys_lacks --help' -s h -l help -d 'Print help'
complete -c pathsys -n '__pathsys_wants trace 2' -F
complete -c pathsys -n '__pathsys_is trace; and __pathsys_lacks --room' -l room -x -d 'how many lines the journal has room for, 1 to 1048576, unless its file says so; 4096 if it isn\'t given'
complete -c pathsys -n '__pathsys_is trace; and __pathsys_lacks --report' -l report -d 'then writes what can start, what is blocked and what is live, and whether all is stuck'
complete -c pathsys -n '__pathsys_is trace; and __pathsys_lacks --after' -l after -r -F -d 'the file of a journal that the attempts go on from, or those of its segments, in order'
complete -c pathsys -n '__pathsys_is trace; and __pathsys_lacks --help' -s h -l help -d 'Print help'
complete -c pathsys -n __pathsys_goes_on -F
complete -c pathsys -n '__pathsys_wants explain 2' -F
complete -c pathsys -n '__pathsys_wants explain 2; and __pathsys_lacks --journal' -l journal -r -F -d 'the file of a journal, in place of attempts'
complete -c pathsys -n '__pathsys_is explain; and __pathsys_lacks --room' -l room -x -d 'how many lines the journal has room for, 1 to 1048576, unless its text says so; 4096 if it isn\'t given'
complete -c pathsys -n '__pathsys_is explain; and __pathsys_lacks --after' -l after -r -F -d 'the file of a journal that the attempts go on from, or those of its segments, in order'
complete -c pathsys -n '__pathsys_is explain; and __pathsys_lacks --help' -s h -l help -d 'Print help'
complete -c pathsys -n __pathsys_goes_on -F
complete -c pathsys -n '__pathsys_wants follow 1' -F
complete -c pathsys -n '__pathsys_is follow; and __pathsys_lacks --room' -l room -x -d 'how many lines the journal has room for, 1 to 1048576, unless its file says so; 4096 if it isn\'t given'
complete -c pathsys -n '__pathsys_is follow; and __pathsys_lacks --journal' -l journal -r -F -d 'the file that keeps the journal: it is made, or gone on from'
complete -c pathsys -n '__pathsys_is follow; and __pathsys_lacks --sync' -l sync -x -d 'when lines are on the disk: each before its answer, which is the usual, all at the end, or as it comes [possible values: each, close, never]'
complete -c pathsys -n '__pathsys_is follow; and __pathsys_lacks --help' -s h -l help -d 'Print help'
complete -c pathsys -n '__pathsys_wants picture 2' -F
complete -c pathsys -n '__pathsys_wants picture 2; and __pathsys_lacks --journal' -l journal -r -F -d 'the file of a journal, in place of attempts'
complete -c pathsys -n '__pathsys_is picture; and __pathsys_lacks --room' -l room -x -d 'how many lines the journal of the attempts has room for, 1 to 1048576; 4096 if it isn\'t given'
complete -c pathsys -n '__pathsys_is picture; and __pathsys_lacks --help' -s h -l help -d 'Print help'
complete -c pathsys -n '__pathsys_wants audit 999' -F
complete -c pathsys -n '__pathsys_is audit; and __pathsys_lacks --room' -l room -x -d 'how many lines the journal had room for, 1 to 1048576, unless its text says so; 4096 if it isn\'t given'
complete -c pathsys -n '__pathsys_is audit; and __pathsys_lacks --help' -s h -l help -d 'Print help'
complete -c pathsys -n '__pathsys_wants run 2' -F
complete -c pathsys -n '__pathsys_is run; and __pathsys_lacks --room' -l room -x -d 'how many lines the journal has room for, 1 to 1048576; 4096 if it isn\'t given'
complete -c pathsys -n '__pathsys_is run; and __pathsys_lacks --help' -s h -l help -d 'Print help'
complete -c pathsys -n '__pathsys_wants explore 2' -F
complete -c pathsys -n '__pathsys_is explore; and __pathsys_lacks --workers' -l workers -x -d 'how many operations may be in progress at once, 1 to 4294967295, if there is no script; 2 if it isn\'t given'
complete -c pathsys -n '__pathsys_is explore; and __pathsys_lacks --most' -l most -x -d 'how many states are looked at before it gives up, 1 to 4294967295; 1000000 if it isn\'t given'
complete -c pathsys -n '__pathsys_is explore; and __pathsys_lacks --help' -s h -l help -d 'Print help'
