# For bash: `. examples/completion.bash`. The Tab key then completes the words and options of a call of studio, and
# `studio_lines FOLDER` is `./studio FOLDER run` with a history, line editing (rlwrap) and the Tab key for the first
# words of lines, sides and the sounds of the folder.

_studio_script=$(cd "$(dirname -- "${BASH_SOURCE[0]}")/.." && pwd)/studio

# Offers, of the words after the first argument, those that begin as it does and do not stand in the call yet.
_studio_offer() {
    local begun=$1 word
    shift
    for word in "$@"; do
        case " ${COMP_WORDS[*]:0:COMP_CWORD} " in
            *" $word "*) ;;
            *) [[ $word == "$begun"* ]] && COMPREPLY+=("$word") ;;
        esac
    done
}

_studio() {
    local begun=${COMP_WORDS[COMP_CWORD]}
    COMPREPLY=()
    if [ "$COMP_CWORD" -eq 1 ]; then
        mapfile -t COMPREPLY < <(compgen -d -- "$begun")
        _studio_offer "$begun" --help
    elif [ "$COMP_CWORD" -eq 2 ]; then
        _studio_offer "$begun" new run try list check gen
    else
        case ${COMP_WORDS[2]} in
            new) _studio_offer "$begun" --rate --block --depth ;;
            run) _studio_offer "$begun" --record --play ;;
        esac
    fi
}

complete -o filenames -F _studio studio

# The words that the Tab key completes in lines: the first words, sides, and the sounds of a folder.
_studio_line_words() {
    printf '%s\n' track drop level side mute put ramp delete split-delete silence trim gain copy cut split-cut paste \
        paste-over undo redo purge purge-to show mix envelope tracks reclaim compact import export bounce both left \
        right
    find "$1/sounds" -maxdepth 1 -type f -printf '%f\n' 2>/dev/null
}

# Types lines: studio_lines FOLDER [--record] [--play]
studio_lines() {
    local words status
    words=$(mktemp) || return
    _studio_line_words "$1" >"$words"
    rlwrap -e '' -b ' ' -f "$words" "$_studio_script" "$1" run "${@:2}"
    status=$?
    rm -f "$words"
    return "$status"
}
