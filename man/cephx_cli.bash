# Made by man/make of the table of the commands; write there. Read it by: source man/cephx_cli.bash

# The names of these types in the keyring of this folder, each with what is to stand behind it.
_cephx_cli_sections() {
    sed -nE "s/^[[:blank:]]*\[(($1)\.[^]]*)\].*/\1${2-}/p" keyring 2>/dev/null
}

# The words that may stand at the place of the one that is being written.
_cephx_cli_words() { # NUMBER COMMAND
    case "$2 $1" in
        'drill 2') echo "3 100 1000" ;;
        'drill 3') echo "0 1" ;;
        'mon 2') echo "1000 1000000" ;;
        'mon 3') echo "127.0.0.1:6789 127.0.0.1:6800" ;;
        'mon 4') echo "3600" ;;
        'mon 5') echo "43200" ;;
        'daemon 2') echo "$(_cephx_cli_sections 'mds|osd|mgr')" ;;
        'daemon 3') echo "1000 1000000" ;;
        'daemon 4') echo "127.0.0.1:6789 127.0.0.1:6800" ;;
        'daemon 5') echo "127.0.0.1:6789" ;;
        'client 2') echo "$(_cephx_cli_sections client)" ;;
        'client 3') echo "1000 1000000" ;;
        'client 4') echo "127.0.0.1:6789" ;;
        'client 5' | 'client '[6-9] | 'client '[1-9][0-9]*) echo "$(_cephx_cli_sections 'mds|osd|mgr' @127.0.0.1:6800)" ;;
    esac
}

_cephx_cli() {
    local word=${COMP_WORDS[COMP_CWORD]} before words
    before=${COMP_LINE:0:COMP_POINT}
    before=${before%"${before##*[[:space:]]}"}
    words=($before)
    word=${COMP_LINE:0:COMP_POINT}
    word=${word##*[[:space:]]}
    if [ ${#words[@]} -le 1 ]; then
        COMPREPLY=($(compgen -W 'replay keyring audit drill key mon daemon client help --help --version' -- "$word"))
    else
        COMPREPLY=($(compgen -W "$(_cephx_cli_words ${#words[@]} "${words[1]}") --help" -- "$word"))
    fi
    # bash takes a colon and an at sign for the ends of words: what stands before the last one is written already.
    local written=${word%"${word##*[:@]}"}
    COMPREPLY=("${COMPREPLY[@]#"$written"}")
}

complete -F _cephx_cli cephx_cli
