#compdef shform
# Completions of shform for zsh: the file is installed as _shform, in a folder that is in $fpath.

# The script: a file, or `-` for standard input, which is offered where a dash is typed.
_shform_script() {
    [[ $PREFIX == - ]] && compadd -- -
    _files
}

_shform() {
    local context state state_descr line
    typeset -A opt_args
    local -a commands help edition layout
    commands=(
        'check:tell the first fault of a script'
        'print:print a script in one layout'
        'session:keep a script open and answer requests while it is edited'
        'help:print help'
    )
    help=('(- :)'{-h,--help}'[print help]')
    edition=('--edition=[the edition of POSIX to read by]:edition:(2017 2024)')
    layout=(
        '(-i --indent)'{-i+,--indent=}'[blanks for each level; 0 stands for a tab]:blanks:({0..16})'
        '--case-indent[indent the items of a case]'
        '--space-redirects[put a space behind the operator of a redirection]'
        '--func-next-line[put the { of a function on a line of its own]'
    )

    _arguments -S $help '(- :)'{-V,--version}'[print the version]' '1: :->command' '*:: :->words' && return
    case $state in
        command) _describe command commands ;;
        words)
            case $line[1] in
                check) _arguments -S $help $edition '1:script:_shform_script' ;;
                print) _arguments -S $help $edition $layout '1:script:_shform_script' ;;
                session) _arguments -S $help $edition $layout '1:script:_files' ;;
                help) _arguments -S '1: :->command' ; [[ $state == command ]] && _describe command commands ;;
            esac
            ;;
    esac
}

# The first call loads this file, and is answered; where it is sourced, it says for what it is.
if [[ $funcstack[1] == _shform ]]; then
    _shform "$@"
else
    compdef _shform shform
fi
