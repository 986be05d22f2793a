# shellcheck shell=sh disable=SC2034,SC2119,SC2120,SC2154
# The words of the front end beside those of the utilities.

cycle_word() {
    case $verb in
    create | enter) store "$@" ;;
    unedit) map_words unget "$@" && undo_edits ;;
    fix) fix_delta "$@" ;;
    info | check | tell) show_edits "$@" ;;
    clean) clean_folder "$@" ;;
    diffs) show_differences "$@" ;;
    print) print_files "$@" ;;
    commit)
        load committing
        commit_files "$@"
        ;;
    esac
}

# each_file FUNCTION: with each operand as it was typed, its s-file in `stored` and its name in `file`
each_file() {
    function=$1
    eval "set -- $operands"
    for operand; do
        stored "$operand"
        file=${file#s.}
        "$function" "$operand"
        join_status $?
    done
}

# create and enter: the file is stored, and stays as ,FILE; create gets its version, and enter says the name
store() {
    takes_of admin
    read_words "$takes" '' "$@"
    if [ -z "$operands" ]; then
        echo "usage: sccs $verb [options of admin] file ..." >&2
        exit 2
    fi
    load changing
    storing=$options
    each_file store_file
}

# store_file FILE
store_file() {
    if ! [ -f "$1" ]; then
        echo "sccs: $1: no file to be stored" >&2
        return 1
    fi
    (eval "admin_command $storing \"-i\$1\" -- \"\$stored\"") || return
    case $1 in
    */*) mv -f "$1" "${1%/*}/,$file" ;;
    *) mv -f "./$1" ",$file" ;;
    esac
    if [ "$verb" = enter ]; then
        printf '\n%s:\n' "$file"
    else
        (get_command -- "$stored")
    fi
}

undo_edits() {
    undone=$operands
    (eval "unget_command $options -- $undone") >/dev/null || { join_status $? && return; }
    is_given s || is_given n || each tell_removed
    eval "get_command -- $undone"
}

tell_removed() {
    printf '%12s: removed\n' "$module"
}

# print: what prs says of each file, and the lines of its newest version with their deltas
print_files() {
    map_words prs "$@"
    printed=$operands
    (eval "prs_command $options -- $printed")
    join_status $?
    eval "get_command -p -m -s -- $printed"
}

# fix: the newest delta of a branch is taken out, and its text is edited anew
fix_delta() {
    takes_of rmdel
    read_words "$takes" '' "$@"
    if ! is_given r || [ -z "$operands" ]; then
        echo 'usage: sccs fix -rSID file ...' >&2
        exit 2
    fi
    load adding
    load placing
    is_sid "$value_r" || { echo "sccs: $value_r: no SID" >&2 && exit 2; }
    wanted_edit "$value_r"
    shielded=1
    each_file fix_file
}

# wanted_edit SID: sets `again` to the options by which get -e gives out a SID once more that was taken back: that of
# its release, or of the delta before it
wanted_edit() {
    case $1 in
    *.*.*.1) again="-b -r${1%.*.*}" ;;
    *.*.*.*) again=-r${1%.*} ;;
    *) again=-r${1%%.*} ;;
    esac
}

# fix_file FILE: what would be refused is, in a copy of the file, before anything is changed; and the text is in the
# caller's folder before its delta goes
fix_file() {
    split_operand "$stored"
    if may_be_written "./$module"; then
        echo "sccs: $module: is there and may be written; move it away first" >&2
        return 1
    fi
    need_work
    rehearse || return
    in_folder "$folder" get -k "-r$value_r" -- "$name" && [ -f "./$module" ] || return
    explained "$folder" rmdel "-r$value_r" -- "$name"
    set -- $?
    # (only a refusal has changed nothing)
    [ "$1" != 1 ] || rm -f "./$module"
    [ "$1" = 0 ] || return "$1"
    # (the words are split)
    # shellcheck disable=SC2086
    explained "$folder" get -e -g $again -- "$name"
}

rehearse() {
    rm -rf "$work/copy"
    mkdir "$work/copy" && cp -p "$stored" "$work/copy/$name" || return
    [ ! -f "$folder/p.$module" ] || cp -p "$folder/p.$module" "$work/copy/p.$module" || return
    [ ! -e "$folder/z.$module" ] || : >"$work/copy/z.$module"
    (
        cd "$work/copy" || exit
        explained . rmdel "-r$value_r" -- "$name" || exit
        # shellcheck disable=SC2086
        explained . get -e -g -s $again -- "$name" >/dev/null
    )
}

# edited_files: sets `operands` to the files with pending edits, of the operands or of all the folder; a folder stands
# for its files
edited_files() {
    [ -n "$operands" ] || { find_folder && add_operand "$found_folder"; }
    eval "set -- $operands"
    operands='' count=0
    for operand; do
        split_operand "$operand"
        if [ "$name" = . ]; then
            add_edited "$folder"
        elif [ -f "$folder/p.$module" ]; then
            add_operand "$operand"
        fi
    done
}

add_edited() {
    edited_folder=$1
    set +f
    set -- "$1"/p.?*
    set -f
    for file; do
        module=${file##*/p.}
        [ ! -f "$file" ] || [ ! -f "$edited_folder/s.$module" ] || add_operand "$edited_folder/s.$module"
    done
}

# the edits that are pending: -b without those of branches, -u of one user alone
show_edits() {
    read_words 'u?' '' "$@"
    takes_only bu "sccs $verb [-b] [-u [login]] [file ...]"
    user='' trunk='' shown=
    ! is_given u || user=${value_u:-${LOGNAME:-nobody}}
    ! is_given b || trunk=' (on trunk)'
    [ -z "$operands" ] || store_operands
    edited_files
    eval "set -- $operands"
    for operand; do
        split_operand "$operand"
        show_edit
    done
    [ -n "$shown" ] || [ "$verb" != info ] || echo "Nothing being edited$trunk"
    [ -z "$shown" ] || [ "$verb" != check ] || status=1
}

# takes_only LETTERS USE: other options are faults
takes_only() {
    case $given in *[!"$1"]*) echo "usage: $2" >&2 && exit 2 ;; esac
}

# the entries of one file, as far as they are asked for
show_edit() {
    [ -r "$folder/p.$module" ] || { echo "sccs: $folder/p.$module: can't be read" >&2 && join_status 1 && return; }
    while read -r got new login more; do
        [ -z "$user" ] || [ "$login" = "$user" ] || continue
        case $new in *.*.*) [ -z "$trunk" ] || continue ;; esac
        shown=1
        if [ "$verb" = tell ]; then
            printf '%s\n' "$module"
            return
        fi
        printf '%12s: being edited: %s %s %s %s\n' "$module" "$got" "$new" "$login" "$more"
    done <"$folder/p.$module"
}

# clean: removes the files that can be got again. What is edited stays, and so does a file that may be written and isn't
# its newest version.
clean_folder() {
    map_words clean "$@"
    takes_only b 'sccs clean [-b] [folder ...]'
    [ -n "$operands" ] || { find_folder && add_operand "$found_folder"; }
    expand_operands
    user='' trunk='' shown='' verb=info going='' doubtful=''
    eval "set -- $operands"
    for operand; do
        split_operand "$operand"
        choose_file
    done
    [ -z "$going" ] || find_writable
    [ -z "$doubtful" ] || compare_doubtful
    [ -z "$going" ] || eval "rm -f -- $going"
}

# what is there and not being edited may go
choose_file() {
    [ -f "./$module" ] || return 0
    held=$shown shown=
    [ ! -f "$folder/p.$module" ] || show_edit
    if [ -z "$shown" ]; then
        quote "./$module"
        going="$going $quoted"
    fi
    shown=$held
}

# find_writable: sets `doubtful` to those of `going` that somebody may write, which are taken out of it
find_writable() {
    eval "set -- $going"
    # shellcheck disable=SC2120
    if ! may_write=$(find "$@" -prune \( -perm -0200 -o -perm -0020 -o -perm -0002 \)); then
        going=
        echo "sccs: it can't be told which files may be written, so all stay" >&2
        join_status 1
        return
    fi
    [ -n "$may_write" ] || return 0
    going=
    for file; do
        quote "$file"
        case "
$may_write
" in
        *"
$file
"*) doubtful="$doubtful $quoted" ;;
        *) going="$going $quoted" ;;
        esac
    done
}

# compare_doubtful: what is its newest version may go all the same; these are got in one call for each folder, into a
# folder of working files
compare_doubtful() {
    need_work
    mkdir "$work/new" || return
    eval "set -- $operands"
    operands='' count=0
    for operand; do
        split_operand "$operand"
        quote "./$module"
        case "$doubtful " in *" $quoted "*) add_operand "$operand" ;; esac
    done
    get_into "$work/new"
    eval "set -- $doubtful"
    for file; do
        if cmp -s "$work/new/$file" "$file"; then
            quote "$file"
            going="$going $quoted"
        else
            echo "sccs: ${file#./}: may be written, isn't being edited and differs from its version; it stays" >&2
            join_status 1
        fi
    done
}

# diffs: what was edited, beside the version that was got for it. -r, -c, -i and -x ask for another one; all other
# options are those of diff, -C its -c.
show_differences() {
    load comparing
    load adding
    passed='' options='' operands='' given='' count=0
    while [ $# -gt 0 ]; do
        case $1 in
        -[rcix]) add_option "$1${2:-}" && shift ;;
        -[rcix]*) add_option "$1" ;;
        -C) pass_option -c ;;
        -?*) pass_option "$1" ;;
        *) add_operand "$1" ;;
        esac
        shift
    done
    if [ -z "$operands" ]; then
        edited_files
    else
        store_operands
        expand_operands
    fi
    each show_difference
}

show_difference() {
    if ! [ -f "./$module" ]; then
        echo "sccs: $1: the file $module isn't here" >&2
        return 1
    fi
    need_work
    lists=''
    asked=$options
    [ -n "$asked" ] || ! find_edit || asked="-r$got $lists"
    eval "in_folder \"\$folder\" get -k -p -s $asked -- \"\$name\"" >"$work/$module" 2>"$work/told"
    set -- $?
    tell_refusals "$folder" "$1" <"$work/told"
    [ "$1" = 0 ] || return "$1"
    printf '\n------- %s -------\n' "$module"
    compare "$work/$module" "./$module" || [ $? = 1 ]
}
