# shellcheck shell=sh disable=SC2034,SC2119,SC2120,SC2154
# g-files that the program doesn't make itself: of get -G, and of names that beside another folder could be those of
# stored files. The text is printed into a new file, which then takes the place of the g-file.

# get_beside OPERAND: the g-file of a file in another folder, or of -G
get_beside() {
    in_own get_placed "$1"
}

get_placed() {
    target=./$module
    ! is_given G || target=$value_G
    case $target in -*) target=./$target ;; esac
    summary=
    ! is_given L && ! is_given l || summary=1
    if [ -n "$summary" ]; then
        # (the program refuses both, and -L with -p)
        asked=$given
        eval "read_words $get_takes lL $options"
        given=$asked
        take_summary || return
    fi
    if is_given p && [ -n "$decoding" ]; then
        make_text && cat "$work/text"
    elif is_given p || is_given g; then
        eval "explained \"\$folder\" get $options \"\$name\""
    else
        make_g_file "$1"
    fi || return
    if [ -z "$summary" ]; then
        return
    elif is_given L; then
        cat "$work/summary"
    else
        make_file "./l.$module" <"$work/summary"
    fi
}

# the summary of the version that these options ask for, which no other option changes; of the others its letters go
take_summary() {
    need_work
    passed=$options options=
    for letter in c i r x; do
        ! is_given "$letter" || eval "add_option \"-$letter\$value_$letter\""
    done
    ! is_given t || add_option -t
    eval "explained \"\$folder\" get $options -L -g -s \"\$name\"" >"$work/summary"
    set -- $?
    options=$passed
    return "$1"
}

# make_file PATH: a new file of standard input, which is made under another name first, and not through a link
make_file() {
    case $1 in */*) unplaced=${1%/*}/.sccs.$$ ;; *) unplaced=./.sccs.$$ ;; esac
    rm -f "$unplaced"
    (set -C && cat >"$unplaced") && mv -f "$unplaced" "$1"
    set -- $?
    rm -f "$unplaced"
    unplaced=
    return "$1"
}

# may_be_written FILE: its mode says so for somebody
may_be_written() {
    [ -e "$1" ] && [ -n "$(find "$1" -prune \( -perm -0200 -o -perm -0020 -o -perm -0002 \) 2>&1)" ]
}

# make_text: the text as get -p gives it, among the working files; what the program then says on standard error but for
# refusals is its report
make_text() {
    need_work
    # (that of a file before may not be written any more)
    rm -f "$work/text" "$work/encoded"
    printed=-p
    ! is_given p || printed=
    eval "in_folder \"\$folder\" get $options $printed \"\$name\"" >"$work/text" 2>"$work/told"
    made=$?
    if is_given p; then
        tell_refusals "$folder" "$made" <"$work/told"
    else
        grep -a -v -E '^(ERROR \[|WARNING \[|USAGE: |sccs: )' "$work/told"
        grep -a -E '^(ERROR \[|WARNING \[|USAGE: |sccs: )' "$work/told" | tell_refusals "$folder" "$made"
    fi
    [ "$made" = 0 ] || return "$made"
    [ -z "$decoding" ] || { mv "$work/text" "$work/encoded" && decode <"$work/encoded" >"$work/text"; }
}

# make_g_file OPERAND: the text at `target`
make_g_file() {
    if may_be_written "$target"; then
        echo "ERROR [$name]: writable file exists (25)" | tell_refusals "$folder" 1
        return 1
    fi
    heading "$name"
    make_text || return
    is_given e || is_given k || chmod a-w "$work/text"
    make_file "$target" <"$work/text" && { is_given e || is_given k || chmod a-w "$target"; }
}

# unget_beside OPERAND: the edit goes, and with it what was edited
unget_beside() {
    passed=$options
    is_given n || add_option -n
    utility='unget'
    hand_own
    set -- $?
    options=$passed
    [ "$1" != 0 ] || is_given n || rm -f "./$module"
    return "$1"
}

# add_beside OPERAND: the program doesn't see what was edited, so what it has stored is read back and compared before
# that goes
add_beside() {
    need_work
    (give_base) >"$work/base" || return
    cat "./$module" >"$work/edited" || return
    [ -z "$(tail -c 1 "$work/edited")" ] || echo >>"$work/edited"
    diff -a -e "$work/base" "$work/edited" >"$work/script"
    case $? in
    0) ;;
    1) [ -s "$work/script" ] || { echo "delta: $1: diff says nothing of how $module has changed" >&2 && return 1; } ;;
    *) return 1 ;;
    esac
    heading "$name"
    in_own explain_delta "$1" -n <"$work/script" || return
    got=$new lists=''
    (give_base) >"$work/back" || return
    if ! cmp -s "$work/back" "$work/edited"; then
        echo "delta: $1: version $new isn't what $module has, which is left here" >&2
        return 1
    fi
    is_given n || rm -f "./$module"
}
