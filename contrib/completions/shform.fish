# Completions of shform for fish.

# The words before the one at hand that are neither options nor their values: the command, then the file.
function __shform_operands
    set -l value no
    set -l ended no
    for word in (commandline -opc)[2..]
        if test $value = yes
            set value no
        else if test $ended = yes; or not string match -q -- '-?*' $word
            echo $word
        else
            switch $word
                case --
                    set ended yes
                case -i --indent --edition
                    set value yes
            end
        end
    end
end

# Whether none of some options was given. One whose value is at hand counts as not given, or fish would not
# offer the value.
function __shform_lacks
    set -l words (commandline -opc)
    contains -- $words[-1] -i --indent --edition; and set -e words[-1]
    for option in $argv
        string match -q -- "$option*" $words; and return 1
    end
    return 0
end

# Whether the command is one of some ('' for none yet), and nothing is given after which the rest would not
# count.
function __shform_runs
    set -l operands (__shform_operands)
    __shform_lacks -h --help -V --version; and contains -- "$operands[1]" $argv
end

# The same, and its first argument is not given.
function __shform_wants
    __shform_runs $argv; and test (count (__shform_operands)) -eq 1
end

complete -c shform -f
complete -c shform -n "__shform_runs ''" -a check -d 'Tell the first fault of a script'
complete -c shform -n "__shform_runs ''" -a print -d 'Print a script in one layout'
complete -c shform -n "__shform_runs ''" -a session -d 'Keep a script open and answer requests'
complete -c shform -n "__shform_runs ''" -a help -d 'Print help'
complete -c shform -n '__shform_wants help' -a 'check print session help'
complete -c shform -n '__shform_wants check print session' -F
complete -c shform -n "__shform_wants check print; and test (commandline -ct) = -" -a - -d 'Standard input'

complete -c shform -n "__shform_runs '' check print session" -s h -l help -d 'Print help'
complete -c shform -n "__shform_runs ''" -s V -l version -d 'Print the version'
complete -c shform -n '__shform_runs check print session; and __shform_lacks --edition' \
    -x -l edition -a '2017 2024' -d 'The edition of POSIX to read by'
complete -c shform -n '__shform_runs print session; and __shform_lacks -i --indent' \
    -x -s i -l indent -a '(seq 0 16)' -d 'Blanks for each level; 0 stands for a tab'
complete -c shform -n '__shform_runs print session; and __shform_lacks --case-indent' \
    -l case-indent -d 'Indent the items of a case'
complete -c shform -n '__shform_runs print session; and __shform_lacks --space-redirects' \
    -l space-redirects -d 'Put a space behind the operator of a redirection'
complete -c shform -n '__shform_runs print session; and __shform_lacks --func-next-line' \
    -l func-next-line -d 'Put the { of a function on a line of its own'
