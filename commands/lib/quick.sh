# shellcheck shell=sh disable=SC2154
# Nothing where nothing is added: the shell becomes the program where that takes the words as they stand and nothing is
# to be explained.

# the options of get with a value: as letters, and as read_words takes them
# shellcheck disable=SC2034
get_valued=cirx get_takes=c:i:r:x:

# quick_words WORD..: sets `letters` to those of the options and `within` to the folder of the files; 1 where the words
# need more
quick_words() {
    for word; do
        case $behind$word in
        # (a cutoff may have four digits of its year)
        - | --* | -V | :-* | -lp | -c??????????????) return 1 ;;
        -["$valued"]?*) ;;
        -*["$valued$own"]*) return 1 ;;
        -*)
            left=${word#-}
            while [ -n "$left" ]; do
                case $letters in *"${left%"${left#?}"}"*) return 1 ;; esac
                letters=$letters${left%"${left#?}"} left=${left#?}
            done
            ;;
        *)
            case $word in
            /s.* | */s.[spxqz].* | */s.sccs.*) return 1 ;;
            */s.*)
                [ -n "$behind" ] || within=${word%/*}
                [ "$within" = "${word%/*}" ] || return 1
                ;;
            */*) return 1 ;;
            *) [ -z "$within" ] || return 1 ;;
            esac
            behind=:
            [ "$word" = . ] || [ ! -d "$word" ] || return 1
            [ "$utility" != val ] || [ -r "$word" ] || return 1
            ;;
        esac
    done
}

# quick_program: sets `program`, where it is sure which
quick_program() {
    program=${SCCS_CORE:-}
    [ -z "$program" ] || return 0
    [ ! -x "$here/../tools/program" ] || return 1
    program=$here/../../bin/sccs-core
}

# quick UTILITY SIGNALS VALUED OWN WORD..: returns where the words need more. SIGNALS are those that the program doesn't
# hear, VALUED the letters of options with a value, which stands in their word here, and OWN those that the program
# lacks. The files are those of the current folder, or all of one other.
quick() {
    [ -n "${LOGNAME:-}" ] && [ ! -t 2 ] && [ "${SCCS_EXPLAIN:-0}" = 0 ] || return 0
    utility=$1 signals=$2 valued=$3 own=$4 letters='' behind='' within=''
    shift 4
    quick_words "$@" || return 0
    # what get only prints may be interrupted
    case $utility$letters in
    get*L*p* | get*p*L*) return 0 ;;
    get*e*) ;;
    get*p*) signals=XFSZ ;;
    esac
    quick_program || return 0
    if [ -n "$within" ]; then
        [ "$utility" != what ] && [ -d "$within" ] && [ -x "$within" ] || return 0
        for word; do
            shift
            case $word in -*) ;; *) word=${word##*/} ;; esac
            set -- "$@" "$word"
        done
        named=${SCCS_FOLDER:-}
        if [ "$within" != . ]; then
            SCCS_FOLDER=$within
            export SCCS_FOLDER
        fi
    fi
    # (an edit of an encoded file is refused, and keeps all keywords)
    case $utility$letters in
    get*e*) ;;
    get* | prs* | val*)
        # shellcheck source=commands/lib/flags.sh
        . "$here/lib/flags.sh"
        if may_have_flags "$@"; then
            [ -z "$within" ] || SCCS_FOLDER=$named
            return 0
        fi
        ;;
    esac
    # shellcheck disable=SC2086
    trap '' $signals
    if [ -p /dev/stdout ]; then
        quietly "$program" "$utility" "$@"
        exit
    fi
    exec "$program" "$utility" "$@"
}

# quietly WORD..: a command whose output goes into a pipe; where nobody reads that any more, it ends as others do at
# SIGPIPE, without a word
quietly() {
    told=''
    if [ -p /dev/stderr ]; then
        ("$@")
    else
        { told=$("$@" 2>&1 >&3 3>&-); } 3>&1
    fi
    set -- $?
    if [ "$1" = 133 ]; then
        told=${told%'sccs: write fault'}
        set -- 141
    fi
    [ -z "$told" ] || printf '%s\n' "$told" >&2
    return "$1"
}

# quick_front WORD..: the front end's get and edit of files that have no path and whose stored files stand in SCCS
quick_front() {
    case ${1:-} in
    get) option='' ;;
    edit) option=-e ;;
    *) return 0 ;;
    esac
    [ $# != 1 ] && [ -z "${PROJECTDIR:-}" ] && [ -d SCCS ] || return 0
    shift
    for word; do
        shift
        case $word in
        -* | */* | [spxqz].* | sccs.plan | sccs.intent) return 0 ;;
        esac
        [ ! -d "$word" ] || return 0
        set -- "$@" "s.$word"
    done
    SCCS_FOLDER=SCCS
    export SCCS_FOLDER
    quick get 'HUP INT QUIT TERM XFSZ' "$get_valued" aG ${option:+"$option"} "$@"
    unset SCCS_FOLDER
}
