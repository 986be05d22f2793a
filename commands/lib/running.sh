# shellcheck shell=sh disable=SC2034,SC2119,SC2120,SC2154
# What all commands stand on: their words, the proved program called for a folder, and how a command ends. (What stands
# here is used by the files that read it.)

# nothing of the environment but what sccs(1) names has a say: what is read here is set here first
IFS=' 	
'
newline='
'
set -f
unset CDPATH GREP_OPTIONS GREP_COLORS POSIXLY_CORRECT BASH_ENV ENV
LC_ALL=C
export LC_ALL
status=0 interrupted='' encoded='' decoding='' ancient='' work='' working='' hearing='' joins='' found='' shielded='' headed='' several='' entering='' verb=''
options='' operands='' given='' flags='' count=0 utility='' folder=. name='' module='' unplaced=''
value_a='' value_c='' value_d='' value_e='' value_f='' value_i='' value_m='' value_r='' value_t='' value_u='' value_x='' value_y='' value_G=''

# the login, where the environment has none, as in a container
[ -n "${LOGNAME:-}" ] || LOGNAME=$(id -un 2>/dev/null) || LOGNAME=
export LOGNAME

# the program: SCCS_CORE, that of the installation, or the one of the clone in which this file stands
case $here in /*) ;; *) here=$PWD/$here ;; esac
core=${SCCS_CORE:-$here/../../bin/sccs-core}
[ -n "${SCCS_CORE:-}" ] || [ ! -x "$here/../tools/program" ] || core=$here/../sccs
case $core in /*) ;; */*) core=$PWD/$core ;; esac

# quote WORD: sets `quoted` to the word as the shell reads it again
quote() {
    quoting=$1 quoted=
    while :; do
        case $quoting in
        *\'*) quoted=$quoted${quoting%%\'*}"'\\''" quoting=${quoting#*\'} ;;
        *) break ;;
        esac
    done
    quoted="'$quoted$quoting'"
}

# read_words TAKES OWN WORD..: sets `options` and `operands`, quoted, `given` to the letters of the options, and value_L
# to the value of the option L. TAKES has `L:` for an option with a value, and `L?` for one whose value stands in its
# word or not at all; OWN has the letters of those that the program doesn't know, which don't come into `options`.
read_words() {
    takes=$1 own=$2 options='' operands='' given='' flags='' count=0
    shift 2
    while [ $# -gt 0 ]; do
        case $1 in
        --) shift && break ;;
        -?*) read_option "$@" && shift "$taken" ;;
        *) add_operand "$1" && shift ;;
        esac
    done
    for word; do
        add_operand "$word"
    done
}

add_operand() {
    quote "$1"
    operands="$operands $quoted"
    count=$((count + 1))
}

add_option() {
    quote "$1"
    options="$options $quoted"
}

# the options of the first word; `taken` is how many words they take
read_option() {
    letters=${1#-} kept=- taken=1
    while [ -n "$letters" ]; do
        rest=${letters#?}
        letter=${letters%"$rest"}
        given=$given$letter
        case $takes in
        *"$letter:"*) value_behind "$@" && return 0 ;;
        *"$letter?"*) keep_value "$letter" "$rest" && rest= ;;
        *) letters=$letter ;;
        esac
        # (a letter that stands twice is one)
        case $own:$flags in
        *"$letter"*:* | *:*"$letter"*) ;;
        *) kept=$kept$letters ;;
        esac
        case $takes in *"$letter?"*) ;; *) flags=$flags$letter ;; esac
        letters=$rest
    done
    [ "$kept" = - ] || add_option "$kept"
}

# the value of the option `letter`: the rest of its word, else the next word
value_behind() {
    if [ -z "$rest" ] && [ $# -gt 1 ]; then
        taken=2
        keep_value "$letter" "$2"
    else
        keep_value "$letter" "$rest"
    fi
    case $own in
    *"$letter"*) [ "$kept" = - ] || add_option "$kept" ;;
    *)
        add_option "$kept$letters"
        [ "$taken" = 1 ] || add_option "$2"
        ;;
    esac
}

keep_value() {
    case $1 in
    [A-Za-z]) eval "value_$1=\$2" ;;
    esac
}

# change_value LETTER VALUE NEW: the option with another value
change_value() {
    eval "set -- \"\$1\" \"\$2\" \"\$3\" $options"
    letter=$1 value=$2 changed=$3 options='' before=''
    shift 3
    for word; do
        case $before$word in
        -*"$letter$value") add_option "${word%"$value"}$changed" ;;
        *) add_option "$word" ;;
        esac
        # (its value may be a word of its own)
        case $word in -*"$letter") before=$word ;; *) before= ;; esac
    done
}

# plain_cutoff: a cutoff whose year has four digits, as one of two; before 1969 and behind 2068 there is no delta
plain_cutoff() {
    case $value_c in
    *[!0-9]*) return ;;
    ??????????????) ;;
    *) return ;;
    esac
    cutoff=${value_c#??}
    [ "${value_c%??????????}" -ge 1969 ] || cutoff=690101000000 ancient=1
    [ "${value_c%??????????}" -le 2068 ] || cutoff=681231235959
    change_value c "$value_c" "$cutoff"
    value_c=$cutoff
}

# is_given LETTER
is_given() {
    case $given in
    *"$1"*) return 0 ;;
    *) return 1 ;;
    esac
}

# split_operand OPERAND: sets `folder`, that of the stored file, and its `name` and `module`; of a folder the name is a
# dot
split_operand() {
    name=${1##*/}
    case $1 in
    */*) folder=${1%"$name"} ;;
    *) folder=. ;;
    esac
    if [ -d "$1" ]; then
        folder=$1 name=.
    fi
    case $folder in *[!/]*/) folder=${folder%/} ;; esac
    module=${name#s.}
}

# is_ambiguous FOLDER NAME: its g-file has the name of a stored file, so that beside another folder the program makes
# none
is_ambiguous() {
    case $2 in
    s.[spxqz].?* | s.sccs.plan | s.sccs.intent) [ "$1" != . ] ;;
    .) [ "$1" != . ] && has_ambiguous "$1" ;;
    *) return 1 ;;
    esac
}

has_ambiguous() {
    set +f
    set -- "$1"/s.[spxqz].?* "$1"/s.sccs.plan "$1"/s.sccs.intent
    set -f
    for file; do
        [ ! -f "$file" ] || return 0
    done
    return 1
}

# the s-files of a folder, in byte order
add_folder() {
    set +f
    set -- "$1"/s.?*
    set -f
    for file; do
        [ ! -f "$file" ] || add_operand "${file#./}"
    done
}

# read_names: the operands with the names of standard input in the place of `-`; but for what, those that are no
# s-file's are passed over
read_names() {
    eval "set -- $operands"
    operands='' count=0
    for operand; do
        if [ "$operand" != - ]; then
            add_operand "$operand"
            continue
        fi
        several=1
        while IFS= read -r line || [ -n "$line" ]; do
            case $utility:${line##*/} in what:?* | *:s.?*) add_operand "${line#./}" ;; esac
        done
    done
    [ "$count" -lt 2 ] || several=1
}

# expand_operands: the operands with the s-files of folders in their place
expand_operands() {
    read_names
    eval "set -- $operands"
    operands='' count=0
    for operand; do
        if [ -d "$operand" ]; then
            several=1
            add_folder "${operand%/}"
        else
            add_operand "${operand#./}"
        fi
    done
}

# a folder of mode 700 for working files, which goes with the command
need_work() {
    [ -z "$work" ] || return 0
    hear_signals
    work=$(mktemp -d "${TMPDIR:-/tmp}/sccs.XXXXXX" 2>/dev/null) || work=$(mktemp -d /tmp/sccs.XXXXXX) || exit 1
}

clean_up() {
    [ -z "$work" ] || rm -rf "$work"
    [ -z "$unplaced" ] || rm -f "$unplaced"
}

# a signal ends the command, behind the program where that is at work
signalled() {
    interrupted=$1
    [ -n "$working" ] || exit "$1"
}

# the signals are heard by the shell from here on; what was done before leaves nothing
hear_signals() {
    [ -z "$hearing" ] || return 0
    hearing=1
    trap clean_up EXIT
    trap 'signalled 129' HUP
    trap 'signalled 130' INT
    trap 'signalled 131' QUIT
    trap 'signalled 143' TERM
}

finish() {
    exit "${interrupted:-$status}"
}

# the status of several commands is the greatest; that of val has the bits of all; that of what is 0 where one of them
# found a mark
join_status() {
    if [ "$joins" = bits ] && [ "$1" -lt 128 ] && [ "$status" -lt 128 ]; then
        status=$((status | $1))
    elif [ "$joins" = found ] && [ "$1" -lt 2 ] && [ "$status" -lt 2 ]; then
        [ "$1" = 1 ] || found=yes
        status=1
        [ -z "$found" ] || status=0
    elif [ "$1" -gt "$status" ]; then
        status=$1
    fi
    [ -z "$interrupted" ] || finish
}

is_explaining() {
    case ${SCCS_EXPLAIN:-} in
    0) return 1 ;;
    '') [ -t 2 ] ;;
    esac
}

# run_program FOLDER WORD..: the shell becomes the program, over the stored files of a folder, or in the folder itself
# where `entering` is set. What can't be written past a limit of the shell is a fault of the disk, and no end; and where
# the program may lock a name it hears no signals.
run_program() {
    trap '' XFSZ
    [ -z "$shielded" ] || trap '' HUP INT QUIT TERM
    if [ "$1" != . ]; then
        if ! [ -d "$1" ] || ! [ -x "$1" ]; then
            echo "sccs: $1: no folder that can be entered" >&2
            exit 1
        elif [ -n "$entering" ]; then
            cd -- "$1" || exit 1
        else
            SCCS_FOLDER=$1
            export SCCS_FOLDER
        fi
    fi
    shift
    exec "$core" "$@"
}

# become FOLDER WORD..: as run_program, for what goes into a pipe
become() {
    [ -p /dev/stdout ] || run_program "$@"
    [ -z "$shielded" ] || trap '' HUP INT QUIT TERM
    quietly run_program "$@"
    exit
}

# in_folder FOLDER WORD..: the program in a process of its own; what stops this command meanwhile waits until it has
# ended
in_folder() {
    hear_signals
    working=1
    (become "$@")
    set -- $?
    working=
    return "$1"
}

# in_own FUNCTION WORD..: a function for which the program is in the folder of the stored files
in_own() {
    entering=1
    "$@"
    set -- $?
    entering=
    return "$1"
}

# hand_own: the utility on one file, in the folder of that file
hand_own() {
    in_own eval "explained \"\$folder\" \"\$utility\" $options -- \"\$name\""
}

# explained FOLDER WORD..: as in_folder, with a line behind each refusal where it is asked for
explained() {
    if ! is_explaining; then
        in_folder "$@"
        return
    fi
    need_work
    in_folder "$@" 2>"$work/told"
    set -- "$1" $?
    tell_refusals "$1" "$2" <"$work/told"
    return "$2"
}

# tell_refusals FOLDER STATUS: passes on what the program said on standard error, with the explanations
tell_refusals() {
    if is_explaining; then
        # shellcheck source=commands/lib/explaining.sh
        . "$here/lib/explaining.sh"
        explain_lines "$@" >&2
    else
        cat >&2
    fi
}

# heading OPERAND: what stands before the report of each of several
heading() {
    [ -z "$several" ] || is_given s || printf '\n%s:\n' "$1"
}

# each FUNCTION: calls it with each operand
each() {
    function=$1
    eval "set -- $operands"
    for operand; do
        split_operand "$operand"
        "$function" "$operand"
        join_status $?
    done
}

# is_special FOLDER NAME: the program doesn't do the file by itself
is_special() {
    [ -n "$encoded" ] && is_encoded "$@" && return
    case $utility in
    prs | val) return 1 ;;
    *) is_ambiguous "$@" ;;
    esac
}

# hand_on UTILITY [FUNCTION [READS]]: the operands in their order, those of one folder that follow one another in one
# call of the program; those that it doesn't do by itself by the function, one after the other. Where the utility reads
# texts, encoded ones are such.
hand_on() {
    utility=$1 special=${2:-}
    case "$utility $operands " in
    "val  '-' ") ;;
    *" '-' "*) read_names ;;
    esac
    [ -z "${3:-}" ] || find_flags
    eval "set -- $operands"
    [ $# -lt 2 ] || several=1
    calling='' names=''
    for operand; do
        split_operand "$operand"
        if [ -n "$names" ] && [ "$folder" != "$calling" ]; then
            call_folder
            names=
        fi
        calling=$folder
        if [ -n "$special" ] && is_special "$folder" "$name"; then
            hand_one "$operand"
        else
            quote "$name"
            names="$names $quoted"
        fi
    done
    if [ -n "$names" ] || [ $# = 0 ]; then
        last_call
    fi
    finish
}

# hand_one OPERAND: what its name needs, behind the call for those before it
hand_one() {
    if [ -n "$names" ]; then
        call_folder
        names=
    fi
    held=$operands operands='' count=0
    if [ "$name" = . ]; then add_folder "$folder"; else add_operand "$1"; fi
    several=1
    each "$special"
    operands=$held
}

# the program gives a heading to each of several names; here to a single one, which is one of several
call_folder() {
    case $names in
    *"' '"* | " '.'") ;;
    *) [ -z "$headed" ] || eval "heading $names" ;;
    esac
    eval "explained \"\$calling\" \"\$utility\" $options ${names:+--} $names"
    join_status $?
}

# the last call takes the place of the shell, where nothing is left to do behind it
last_call() {
    if [ "$status" = 0 ] && [ -z "$hearing$several" ] && ! is_explaining; then
        eval "become \"\${calling:-.}\" \"\$utility\" $options ${names:+--} $names"
    fi
    calling=${calling:-.}
    call_folder
}

# what the commands say of themselves
case ${1:-} in
--help | --version | -V)
    # shellcheck source=commands/lib/telling.sh
    . "$here/lib/telling.sh"
    tell_about "${0##*/}" "$1"
    ;;
esac
