# shellcheck shell=sh disable=SC2034,SC2119,SC2120,SC2154
# The utilities that the program does nearly by itself.

# load FILE: reads a file of the library
load() {
    # shellcheck disable=SC1090
    . "$here/lib/$1.sh"
}

# -G names the g-file of a single file, and -a a version by its serial, which the program doesn't; System V's -lp is -L,
# which may stand beside -p
get_command() {
    ended=''
    for word; do
        shift
        case $ended$word in
        -lp) word=-L ;;
        --) ended=-- ;;
        esac
        set -- "$@" "$word"
    done
    read_words "a:${get_takes}G:" aG "$@"
    plain_cutoff
    ! is_given p && ! is_given g && headed=1
    is_given p && ! is_given e || shielded=1
    load flags
    if is_given a; then
        get_by_serial "$@"
    elif is_given G; then
        name_g_file
    elif is_given L && is_given p && ! is_given l; then
        summarize_texts
    fi
    hand_on get place_g_file flags
}

# summarize_texts: each text behind its summary
summarize_texts() {
    utility='get'
    expand_operands
    find_flags
    summarized=$operands
    eval "read_words $get_takes L $options"
    eval "read_words $get_takes '' $options"
    operands=$summarized
    load placing
    each summarize_text
    finish
}

summarize_text() {
    take_summary || return
    cat "$work/summary"
    hand_file "$1" place_g_file
}

# get_by_serial WORD..: -a, beside which -r and -t don't count
get_by_serial() {
    case $value_a in '' | *[!0-9]*) echo "get: -a$value_a: no serial" >&2 && exit 2 ;; esac
    read_words "a:${get_takes}G:" artG "$@"
    utility='get'
    expand_operands
    find_flags
    each get_serial
    finish
}

get_serial() {
    need_work
    asked=$options reading=$folder
    [ -z "$encoded" ] || ! is_encoded "$folder" "$name" || plain_copy || return
    in_folder "$folder" prs -e '-d:DS: :I:' -- "$name" >"$work/serials" 2>"$work/told"
    set -- "$1" $?
    folder=$reading
    if [ "$2" != 0 ]; then
        tell_refusals "$folder" "$2" <"$work/told"
        return "$2"
    fi
    sid=$(awk -v serial="$value_a" '$1 == serial { print $2 }' "$work/serials")
    [ -n "$sid" ] || { echo "get: $1: no delta has the serial $value_a" >&2 && return 1; }
    options="$options -r$sid"
    if is_given G; then place_g_file "$1"; else hand_file "$1" place_g_file; fi
    set -- $?
    options=$asked
    return "$1"
}

# hand_file OPERAND FUNCTION: the utility on one file, by the function where the program doesn't do that by itself
hand_file() {
    if is_special "$folder" "$name"; then
        "$2" "$1"
    else
        heading "$name"
        eval "explained \"\$folder\" \"\$utility\" $options -- \"\$name\""
    fi
}

name_g_file() {
    utility='get'
    expand_operands
    find_flags
    if [ "$count" != 1 ]; then
        echo 'get: -G names the g-file of one s-file' >&2
        exit 2
    fi
    each place_g_file
    finish
}

place_g_file() {
    if [ -n "$encoded" ] && is_encoded "$folder" "$name"; then
        get_encoded "$1"
    else
        load placing
        get_beside "$1"
    fi
}

# -r may be that of the SID got, where it names one edit of the login
unget_command() {
    read_words r: '' "$@"
    shielded=1 headed=1 utility='unget'
    if is_given r; then
        load adding
        expand_operands
        [ -z "$operands" ] || { each drop_edit && finish; }
    fi
    hand_on unget drop_g_file
}

drop_edit() {
    dropping=$options
    if find_edit; then
        options="-r$new"
        ! is_given n || add_option -n
        ! is_given s || add_option -s
    fi
    hand_file "$1" drop_g_file
    set -- $?
    options=$dropping
    return "$1"
}

drop_g_file() {
    load placing
    unget_beside "$1"
}

rmdel_command() {
    read_words r: '' "$@"
    shielded=1
    hand_on rmdel hand_own
}

# without -m and -y both are asked for
cdc_command() {
    read_words m:r:y? '' "$@"
    shielded=1 utility='cdc'
    if ! is_given m && ! is_given y && is_given r && [ -n "$operands" ]; then
        case " $operands " in
        *" '-' "*) echo "cdc: where - takes the names from standard input, -m or -y say what changes" >&2 && exit 2 ;;
        esac
        load adding
        asked_mrs=''
        expand_operands
        ask
        [ -z "$asked_mrs" ] || add_option "-m$asked_mrs"
    fi
    hand_on cdc hand_own
}

sact_command() {
    read_words '' '' "$@"
    hand_on sact
}

# a data keyword that has nothing is `none`, and a line end at the end of the form gives no second one
prs_command() {
    read_words c:d:r? d "$@"
    plain_cutoff
    utility='prs'
    load flags
    # (no delta is older than that; what is refused is told)
    [ -z "$ancient" ] || ! is_given e || (hand_on prs use_plain flags) >/dev/null || join_status $?
    [ -z "$ancient" ] || ! is_given e || finish
    if is_given d; then
        form=$value_d
        case $form in ?*'\n') form=${form%'\n'} ;; esac
        case $form in
        *:FD:* | *:UN:* | *:Y:* | *:MP:* | *:LK:* | *:FB:* | *:CB:* | *:Ds:*)
            expand_operands
            find_flags
            each print_form
            finish
            ;;
        esac
        add_option "-d$form"
    fi
    hand_on prs use_plain flags
}

# print_form OPERAND: each keyword of the file that has nothing goes out of the form first
print_form() {
    [ -z "$encoded" ] || ! is_encoded "$folder" "$name" || plain_copy || return
    left=$form filled=''
    while :; do
        case $left in *:*:*) ;; *) break ;; esac
        filled=$filled${left%%:*} left=${left#*:}
        keyword=${left%%:*}
        case $keyword in
        FD | UN | Y | MP | LK | FB | CB | Ds)
            left=${left#*:}
            if [ -n "$(in_folder "$folder" prs "-d:$keyword:" -- "$name" 2>/dev/null)" ]; then
                filled=$filled:$keyword:
            else
                filled=${filled}none
                case $keyword in FD | UN) filled=$filled'\n' ;; esac
            fi
            ;;
        [A-Z] | [A-Z][A-Za-z]) filled=$filled:$keyword: left=${left#*:} ;;
        *) filled=$filled: ;;
        esac
    done
    eval "explained \"\$folder\" prs $options \"-d\$filled\$left\" -- \"\$name\""
}

# a file that can't be read is none that can be opened
val_command() {
    read_words m:r:y: '' "$@"
    joins=bits utility='val'
    load flags
    case " $operands " in
    *" '-' "*) hand_on val ;;
    esac
    drop_unreadable
    hand_on val use_plain flags
}

drop_unreadable() {
    eval "set -- $operands"
    operands='' count=0
    for operand; do
        if [ -f "$operand" ] && [ ! -r "$operand" ]; then
            printf '%s: cannot open file or file not SCCS\n' "${operand##*/}"
            join_status 16
        else
            add_operand "$operand"
        fi
    done
    [ $# = 0 ] || [ -n "$operands" ] || finish
}

what_command() {
    read_words '' '' "$@"
    joins=found entering=1
    hand_on what
}

# get_into FOLDER: the newest versions of the operands, unexpanded, as files of a folder of working files; what is
# reported goes to `sids` there
get_into() {
    eval "set -- $operands"
    from_root=
    for operand; do
        case $operand in /*) ;; *) operand=$PWD/$operand ;; esac
        quote "$operand"
        from_root="$from_root $quoted"
    done
    (cd -- "$1" && eval "get_command -k -- $from_root") >"$work/sids" 2>"$work/told"
}
