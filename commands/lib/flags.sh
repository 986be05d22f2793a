# shellcheck shell=sh disable=SC2034,SC2119,SC2120,SC2154
# Flags that the program doesn't do: e, of an encoded text, which is read here by a copy without the flag, and y, of the
# keywords that are replaced.

# the flags as they stand in a file, and the line behind them all; they begin with a byte that is no text
FLAG_E='^[[:cntrl:]]f e 1$'
FLAG_Y='^[[:cntrl:]]f y '
FLAGS_END='^[[:cntrl:]]t$'

# first_flags WORD..: of each file the first line that is one of these; so no text is read
first_flags() {
    LC_ALL=C grep -a -s -m 1 -e "$FLAG_E" -e "$FLAG_Y" -e "$FLAGS_END" "$@"
}

# may_have_flags WORD..: a file of the current folder, or of that of the environment, among the words may have one of
# them. What is no file isn't opened, since that could wait for another program.
may_have_flags() {
    at=${SCCS_FOLDER:+$SCCS_FOLDER/}
    for word; do
        shift
        case $word in
        -*) ;;
        .) set +f && set -- "$@" "$at"s.?* && set -f ;;
        *) [ ! -f "$at$word" ] || set -- "$@" "$at$word" ;;
        esac
    done
    for word; do
        [ -f "$word" ] || return 0
    done
    case $# in
    0) return 1 ;;
    1) short_header "$1" || return $(($? - 1)) ;;
    esac
    flagged=$(first_flags -h -- "$@" 2>/dev/null)
    # (127 and 126 are of the shell: there is none, or the words are too long for it)
    case $?:$flagged in
    126:* | 127:* | *'f e 1'* | *'f y '*) return 0 ;;
    esac
    return 1
}

# short_header FILE: reads a header of few lines without a process; 1 where it has a flag, 2 where it has none, 0 where
# it is longer
short_header() {
    count=0
    while [ "$count" -lt 40 ] && IFS= read -r line; do
        case $line in
        ?t) return 2 ;;
        ?'f e 1' | ?'f y '*) return 1 ;;
        esac
        count=$((count + 1))
    done <"$1"
}

# with_flags: those of the operands' s-files that may have one of them, as folder/name
with_flags() {
    eval "set -- $operands"
    single=''
    for operand; do
        split_operand "$operand"
        if [ "$name" != . ]; then
            quote "$folder/$name"
            [ ! -f "$folder/$name" ] || single="$single $quoted"
        else
            (cd -- "$folder" && find . ! -name . -prune -name 's.?*' -type f -exec grep -H -a -s -m 1 -e "$FLAG_E" -e "$FLAG_Y" -e "$FLAGS_END" -- {} +) |
                named_flags | while IFS= read -r file; do printf '%s/%s\n' "$folder" "${file#./}"; done
        fi
    done
    [ -z "$single" ] || eval "printf '%s\n' $single" | sed 's/[^A-Za-z0-9]/\\&/g' |
        xargs grep -H -a -s -m 1 -e "$FLAG_E" -e "$FLAG_Y" -e "$FLAGS_END" -- /dev/null | named_flags
}

# named_flags: of lines of grep the files with a flag
named_flags() {
    sed -n 's/:[[:cntrl:]]f [ey] .*$//p'
}

# has_flag FORM FILE: its header has a line of that form
has_flag() {
    [ -n "$(sed -n "/$1/p; /$FLAGS_END/q" <"$2")" ]
}

# find_flags: sets `encoded` to the files with an encoded text, and says whose flag y isn't done, where keywords are
# replaced
find_flags() {
    flagged=$(with_flags)
    [ -n "$flagged" ] || return 0
    while IFS= read -r file; do
        ! has_flag "$FLAG_E" "$file" || encoded=$encoded$newline$file
        case $utility:$given in
        get:*[kge]*) ;;
        get:*) has_flag "$FLAG_Y" "$file" && echo "get: ${file##*/}: its flag y names keywords, and all are replaced (-k leaves them)" >&2 ;;
        esac
    done <<X
$flagged
X
}

# is_encoded FOLDER NAME: its text is; of a folder the name is a dot
is_encoded() {
    case $2:$encoded$newline in
    .:*"$newline$1/"* | *:*"$newline$1/$2$newline"*) return 0 ;;
    esac
    return 1
}

# plain_copy: sets `folder` to that of a copy of the s-file without its flag e, where nothing else is against the file
plain_copy() {
    need_work
    mkdir -p "$work/plain" && rm -f "$work/plain/$name" || return
    in_folder "$folder" get -g -s -- "$name" 2>"$work/told"
    set -- $?
    if ! grep -q '(09)$' "$work/told"; then
        tell_refusals "$folder" "$1" <"$work/told"
        [ "$1" != 0 ] || echo "$utility: $name: has changed meanwhile" >&2
        return 1
    fi
    sed "1,/$FLAGS_END/{/$FLAG_E/d;}" <"$folder/$name" >"$work/plain/$name" && in_folder "$work/plain" admin -z -- "$name" || return
    folder=$work/plain
}

# use_plain OPERAND: the utility on a file, or on the copy of one with an encoded text
use_plain() {
    case $utility:$options in
    # (the copy has another place)
    prs:*:PN:*) ;;
    *) ! is_encoded "$folder" "$name" || plain_copy || return ;;
    esac
    eval "explained \"\$folder\" \"\$utility\" $options -- \"\$name\""
}

# get_encoded OPERAND: the version of the copy, decoded. What changes its lines isn't done, nor an edit.
get_encoded() {
    if is_given e || is_given m || is_given n; then
        eval "explained \"\$folder\" get $options -- \"\$name\""
        return
    fi
    plain_copy || return
    passed=$options decoding=1
    is_given k || add_option -k
    load placing
    get_beside "$1"
    set -- $?
    options=$passed decoding=''
    return "$1"
}

# decode: the bytes of lines of which each has its length and then, for three bytes, four characters of six bits each,
# from the blank on
decode() {
    awk '
        BEGIN { for (code = 32; code < 97; code++) six[sprintf("%c", code)] = (code - 32) % 64 }
        { text = ""; size = six[substr($0, 1, 1)] }
        length($0) == 0 || $0 ~ /[^ -`]/ || length($0) > 2 + int((size + 2) / 3) * 4 { exit 1 }
        {
            for (place = 2; size > 0; place += 4) {
                bits = ((six[substr($0, place, 1)] * 64 + six[substr($0, place + 1, 1)]) * 64 + six[substr($0, place + 2, 1)]) * 64 + six[substr($0, place + 3, 1)]
                for (step = 65536; step >= 1 && size > 0; step /= 256) {
                    text = text sprintf("\\%03o", int(bits / step) % 256)
                    size--
                }
            }
            print text
        }' >"$work/octal" || { echo "get: $name: a line isn't encoded" >&2 && return 1; }
    while read -r line; do
        # shellcheck disable=SC2059
        printf "$line" || return
    done <"$work/octal"
}
