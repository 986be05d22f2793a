# shellcheck shell=sh disable=SC2034,SC2119,SC2120,SC2154
# delta: diff makes the ed script that the program takes, of the version that was got and of what was edited. The
# program compares what the script makes with what was edited, and stores nothing where they differ, so whatever comes
# of this is that text or a refusal.

delta_command() {
    read_words m:r:y?Ep Ep "$@"
    hear_signals
    shielded=1 headed=1 utility=delta asked_mrs='' new=''
    if is_given E; then
        take_script
        finish
    fi
    case " $operands " in
    *" '-' "*) is_given y || { echo "delta: where - takes the names from standard input, -y has the comment" >&2 && exit 2; } ;;
    esac
    expand_operands
    [ -n "$operands" ] || hand_on delta
    is_given y || each check_edit
    [ "$status" = 0 ] || finish
    ask
    each add_delta
    finish
}

# -E: standard input is the script; it is read whole before anything is locked
take_script() {
    need_work
    cat >"$work/script" || exit 132
    expand_operands
    [ -n "$operands" ] || hand_on delta
    each give_script
}

# give_script OPERAND: the program with the script, and with what was edited
give_script() {
    heading "$name"
    explain_delta "$1" <"$work/script"
}

# ask: the MRs, where a file wants them and none are given, and the comment, where none is given
ask() {
    if ! is_given m && any_wants_mrs; then
        answer 'MRs? '
        while :; do
            case $answered in
            *"
"*) answered="${answered%%"
"*} ${answered#*"
"}" ;;
            *) break ;;
            esac
        done
        asked_mrs=$answered
    fi
    is_given y || { answer 'comments? ' && add_option "-y$answered"; }
}

any_wants_mrs() {
    eval "set -- $operands"
    for operand; do
        ! wants_mrs "$operand" || return 0
    done
    return 1
}

# wants_mrs FILE: the flag v stands in its header, before the description
wants_mrs() {
    [ -f "$1" ] && [ -r "$1" ] && [ -n "$(sed -n '/^[[:cntrl:]]f v/p; /^[[:cntrl:]]t$/q' "$1")" ]
}

# answer PROMPT: sets `answered` to a line of standard input, which goes on where it ends with a backslash; only at a
# terminal the prompt stands
answer() {
    answered=
    [ ! -t 0 ] || printf '%s' "$1"
    while IFS= read -r line || [ -n "$line" ]; do
        answered=$answered${line%\\}
        [ "$line" != "${line%\\}" ] || return 0
        answered="$answered
"
    done
}

# the login, as the program reads it
find_login() {
    login=${LOGNAME:-nobody}
    [ ${#login} -le 64 ] || login=nobody
    case $login in *[!!-~]*) login=nobody ;; esac
}

# plain_sid SID: sets `plain` to it without leading zeros
plain_sid() {
    plain='' left=$1.
    while [ -n "$left" ]; do
        part=${left%%.*} left=${left#*.}
        while :; do
            case $part in
            0?*) part=${part#0} ;;
            *) break ;;
            esac
        done
        plain=$plain${plain:+.}$part
    done
}

# is_sid WORD
is_sid() {
    case $1 in
    '' | *[!0-9.]* | .* | *. | *..*) return 1 ;;
    esac
}

# find_edit: sets `got`, `new` and `lists` to those of the one edit of the login, and of -r where that is given. A word
# that isn't of its form is none of an edit, which the program then says.
find_edit() {
    find_login
    edits=0 got='' new='' lists='' wanted=''
    if is_given r; then
        is_sid "$value_r" || return
        plain_sid "$value_r"
        wanted=$plain
    fi
    [ -r "$folder/p.$module" ] && [ -f "$folder/p.$module" ] || return
    while read -r one two who day time more; do
        if [ "$who" != "$login" ] || ! is_sid "$one" || ! is_sid "$two"; then
            continue
        fi
        case $more in *[!0-9.,ix\ -]*) continue ;; esac
        if [ -n "$wanted" ]; then
            plain_sid "$one"
            if [ "$plain" != "$wanted" ]; then
                plain_sid "$two"
                [ "$plain" = "$wanted" ] || continue
            fi
        fi
        edits=$((edits + 1)) got=$one new=$two lists=$more
    done <"$folder/p.$module"
    [ "$edits" = 1 ]
}

# check_edit OPERAND: what would be refused is, before anything is asked
check_edit() {
    if ! find_edit || [ -e "$folder/z.$module" ]; then
        let_refuse
        return
    fi
    is_here "$1" && refuse_dots
}

is_here() {
    [ ! -f "$module" ] || return 0
    echo "delta: $1: the file $module, which was edited, isn't here" >&2
    return 1
}

# the program says what is wrong: this script is none, so that it ends with a refusal
let_refuse() {
    eval "explained \"\$folder\" delta $options -- \"\$name\"" <<'END'
?
END
}

# the version that was got, unexpanded, for which the shell becomes the program
give_base() {
    shielded=
    # (the lists are split)
    # shellcheck disable=SC2086
    run_program "$folder" get -k -p -s "-r$got" $lists -- "$name"
}

# refuse_dots: in a script a line that is a single dot ends the lines that are inserted, so it can't be one of them
refuse_dots() {
    grep -a -q -x '\.' "./$module" || return 0
    dot=$( (give_base) 2>/dev/null | diff -a - "./$module" | awk '
        /^[0-9]/ { split($0, numbers, "[acd]"); number = numbers[2] + 0; next }
        $0 == "> ." { print number; exit }
        /^>/ { number++ }')
    [ -n "$dot" ] || return 0
    echo "delta: $module: line $dot is a single dot, which an ed script can't insert" >&2
    return 1
}

# add_delta OPERAND: diff and the program stand in one line. What diff does wrong, and what is cut off by a signal,
# makes another text than what was edited, which the program refuses.
add_delta() {
    if ! find_edit; then
        let_refuse
        return
    fi
    is_here "$1" || return
    if is_ambiguous "$folder" "$name"; then
        # shellcheck source=commands/lib/placing.sh
        . "$here/lib/placing.sh"
        add_beside "$1"
        return
    fi
    ! is_given p || keep_texts || return
    heading "$name"
    working=1
    if is_explaining; then
        need_work
        make_delta "$1" 2>"$work/told"
        given_status=$?
        tell_refusals "$folder" "$given_status" <"$work/told"
    else
        make_delta "$1"
        given_status=$?
    fi
    working=
    [ "$given_status" = 0 ] || [ -n "$interrupted" ] || refuse_dots
    return "$given_status"
}

# make_delta OPERAND: with -p its report has the difference behind the SID
make_delta() {
    if ! is_given p; then
        give_base | diff -a -e - "./$module" | give_delta "$1"
        return
    fi
    give_base | diff -a -e - "./$module" | give_delta "$1" >"$work/report"
    set -- $?
    sed -n 1p "$work/report"
    [ "$1" != 0 ] || diff -a "$work/before" "$work/after"
    sed 1d "$work/report"
    return "$1"
}

# keep_texts: what -p compares, kept until the delta is made
keep_texts() {
    need_work
    (give_base) >"$work/before" && cat "./$module" >"$work/after"
}

# explain_delta OPERAND [OPTION]: as give_delta, in a process of its own, with a line behind each refusal where it is
# asked for
explain_delta() {
    working=1
    if is_explaining; then
        need_work
        (give_delta "$@") 2>"$work/told"
        set -- $?
        tell_refusals "$folder" "$1" <"$work/told"
    else
        (give_delta "$@")
        set -- $?
    fi
    working=
    return "$1"
}

# give_delta OPERAND [OPTION]: the shell becomes the program, with the script as its input
give_delta() {
    set -- "$1" ${2:+"$2"}
    is_given r || [ -z "$new" ] || set -- "$@" "-r$new"
    [ -z "$asked_mrs" ] || ! wants_mrs "$1" || set -- "$@" "-m$asked_mrs"
    shift
    eval "become \"\$folder\" delta $options \"\$@\" -- \"\$name\""
}
