# shellcheck shell=sh disable=SC2034,SC2119,SC2120,SC2154
# admin: the text of a new file and a description are read before anything is locked, wherever they stand. An s-file of
# a text that may be executed may be so too.

admin_command() {
    read_words 'a:d:e:f:m:r:i?t?y?' '' "$@"
    shielded=1 utility=admin text='' described='' executable=''
    # (the first level of a release is what the release alone says)
    case $value_r in [0-9]*.1) change_value r "$value_r" "${value_r%.1}" ;; esac
    source=${value_i:-/dev/stdin}
    ! is_given i || [ ! -f "$source" ] || [ ! -x "$source" ] || executable=1
    case $given in
    *i* | *t*) take_texts ;;
    esac
    if [ -n "$text$described" ]; then
        eval "split_operand $operands"
        give_texts
    elif [ -n "$executable" ]; then
        (hand_on admin hand_own)
    else
        hand_on admin hand_own
    fi
    join_status $?
    [ "$status" != 0 ] || [ -z "$executable" ] || { eval "split_operand $operands" && chmod +x "$folder/$name"; }
    finish
}

# the program takes a name of the caller's folder, and standard input where that is a file; all else is read here
take_texts() {
    [ "$count" = 1 ] || return 0
    eval "split_operand $operands"
    if is_given t && [ -n "$value_t" ] && ! is_plain_file "$value_t"; then
        can_be_read "$value_t" && read_into described <"$value_t"
        change_value t "$value_t" described
    fi
    if ! is_given i; then
        return
    elif [ -z "$value_i" ]; then
        [ -f /dev/stdin ] && [ -z "$described" ] || read_into text || exit 132
    elif [ -n "$described" ] || ! is_plain_file "$value_i"; then
        can_be_read "$value_i" && read_into text <"$value_i"
        change_value i "$value_i" ''
    fi
}

# is_plain_file NAME: a file of the caller's folder, whose name isn't that of a stored file, and which the program finds
# there
is_plain_file() {
    case $1 in
    */* | [spxqz].* | sccs.plan | sccs.intent) return 1 ;;
    esac
    ! is_ambiguous "$folder" "$name" || return 1
    [ ! -e "$1" ] || [ -f "$1" ]
}

can_be_read() {
    if [ -d "$1" ] || ! [ -r "$1" ]; then
        echo "admin: $1: no file that can be read" >&2
        exit 1
    fi
}

# read_into NAME: standard input is kept in a file for the variable of that name
read_into() {
    need_work
    cat >"$work/$1" || return
    eval "$1=\$work/$1"
}

# the program with what was read: the text as its input, the description as a file of the folder in which it is
give_texts() {
    text=${text:-/dev/null}
    if is_ambiguous "$folder" "$name"; then
        [ -z "$described" ] || { echo "admin: $name: its description is to be given by a call of its own, in its folder" >&2 && return 1; }
        entering=1
    elif [ -n "$described" ]; then
        case $folder in /*) ;; *) folder=$PWD/$folder ;; esac
        cd -- "$work" || return
    fi
    eval "explained \"\$folder\" admin $options -- \"\$name\"" <"$text"
}
