# Completions of shform for bash. bash-completion finds them where `make install` puts them; without it,
# `source` this file.

_shform() {
    local cur=${COMP_WORDS[COMP_CWORD]} awaited='' command='' file='' ended='' given=' ' offered='' word i
    COMPREPLY=()

    # What the words before this one are. `--edition=2024` is three of them, and a redirection two.
    for ((i = 1; i < COMP_CWORD; i++)); do
        word=${COMP_WORDS[i]}
        if [[ $awaited ]]; then
            [[ $word == = ]] || awaited=''
        elif [[ $word == *[\<\>]* ]]; then
            awaited='a file'
        elif [[ $ended || $word != -?* ]]; then
            [[ $command ]] && file=$word || command=$word
        else
            case $word in
                --) ended=yes ;;
                -i | --indent) awaited=number word='-i --indent' ;;
                -i*) word='-i --indent' ;;
                --edition) awaited=year ;;
                -[hV]* | --help | --version) return ;; # nothing that follows counts
            esac
            given+="$word "
        fi
    done
    [[ $awaited && $cur == = ]] && cur=''

    case $awaited in
        'a file') compopt -o bashdefault -o default; return ;;
        number) offered=$(echo {0..16}) ;;
        year) offered='2017 2024' ;;
        '')
            case $command in
                '')
                    if [[ $ended ]]; then return; fi
                    offered='check print session help'
                    [[ $cur == -* ]] && offered='-h --help -V --version'
                    ;;
                help) [[ $file ]] || offered='check print session help' ;;
                check | print | session)
                    if [[ $cur != -* || $ended ]]; then
                        [[ $file ]] || compopt -o bashdefault -o default # files, as readline completes them
                        return
                    fi
                    offered='--edition -h --help'
                    [[ $command == check ]] ||
                        offered+=' -i --indent --case-indent --space-redirects --func-next-line'
                    [[ $command == session || $file ]] || offered+=' -' # standard input
                    ;;
            esac
            ;;
    esac
    for word in $offered; do
        [[ $word == "$cur"* && $given != *" $word "* ]] && COMPREPLY+=("$word")
    done
}

complete -F _shform shform
