# Completion of krossvil for bash: commands, options, kinds, names of a table, and files.

_krossvil_words() { # WORDS WORD: those that the word can go on to
    mapfile -t COMPREPLY < <(compgen -W "$1" -- "$2")
}

# Names are anybody's text: the command itself finds those that fit, and writes them as the shell takes them. Nothing of them is expanded
# here. In a word that is begun with a quotation mark they are not completed.
_krossvil_names() { # PROGRAM OPTION WORD
    local words=("${COMP_WORDS[@]:2}")
    words=("${words[@]//[\\\"\']/}")
    words=("${words[@]/#\~\//$HOME/}")
    compopt +o filenames 2>/dev/null
    [[ $3 == [\"\']* ]] || mapfile -t COMPREPLY < <("$1" complete "$2" "${3//\\/}" "${words[@]}" 2>/dev/null)
}

_krossvil() {
    local word=${COMP_WORDS[COMP_CWORD]} before=${COMP_WORDS[COMP_CWORD - 1]} options=
    [ "$before" != = ] || before=${COMP_WORDS[COMP_CWORD - 2]} # bash splits at =
    [ "$word" != = ] || word=
    COMPREPLY=()
    case ${COMP_WORDS[1]} in
    @OPTIONS@
    esac
    if [ "$COMP_CWORD" -eq 1 ]; then
        _krossvil_words '@COMMANDS@ help --help --version' "$word"
    elif [ "${COMP_WORDS[1]}" = help ]; then
        _krossvil_words '@COMMANDS@' "$word"
    elif [ "$before" = --as ]; then
        _krossvil_words 'table journal short stamped stimulus' "$word"
    elif [ "$before" = --show ]; then
        _krossvil_words '@SHOWN@' "$word"
    elif [ "$before" = --about ]; then
        _krossvil_words '@TOPICS@' "$word"
    elif [ "$before" = --blank ]; then
        _krossvil_words 'poll test tick' "$word"
    elif [ "$before" = --told ]; then
        _krossvil_words 'each end' "$word"
    elif [[ $before == --from || $before == --while ]]; then
        _krossvil_names "$1" "$before" "$word"
    elif [[ $word == -* ]]; then
        _krossvil_words "$options" "$word"
    else
        mapfile -t COMPREPLY < <(compgen -f -- "$word")
    fi
}
complete -o filenames -F _krossvil krossvil
