# shellcheck shell=sh disable=SC2034,SC2119,SC2120,SC2154
# commit: the deltas of all files that are being edited and have changed, those of a folder of s-files as one group.

# the files are those that are asked for, or of those folders, or all of the folder, as far as the login edits them
commit_files() {
    load adding
    map_words delta "$@"
    new='' asked_mrs='' shielded=1
    is_one_line "$value_y"
    edited_files
    keep_ours
    [ "$status" = 0 ] || return
    if [ "$count" = 0 ]; then
        echo 'Nothing being edited'
        return
    fi
    need_work
    mkdir "$work/base" || exit 1
    get_newest
    find_changes
    [ "$status" = 0 ] || return
    if [ "$count" = 0 ]; then
        echo 'Nothing changed'
        return
    fi
    ask_once
    count_lines
    commit_folders
}

# keep_ours: `operands` without those that others alone edit
keep_ours() {
    eval "set -- $operands"
    operands='' count=0
    for operand; do
        split_operand "$operand"
        if ! find_edit; then
            [ "$edits" -gt 1 ] || continue
            refuse_commit "$operand: several edits of $login; give each to delta with -r"
        elif ! [ -f "./$module" ]; then
            refuse_commit "$operand: the file $module, which was edited, isn't here"
        elif is_ambiguous "$folder" "$name"; then
            refuse_commit "$operand: $module can't be stored with others; give it to delta"
        fi
        add_operand "$operand"
    done
}

refuse_commit() {
    echo "sccs: $*" >&2
    join_status 1
}

# get_newest: the newest versions of several files of one folder, as files of `base` in one call; sets `newest` to their
# names and SIDs
get_newest() {
    newest=/
    eval "set -- $operands"
    [ $# -gt 1 ] || return 0
    split_operand "$1"
    first_folder=$folder
    for operand; do
        split_operand "$operand"
        [ "$folder" = "$first_folder" ] || return 0
    done
    get_into "$work/base"
    # of each a heading, the SID and the count of lines
    while IFS= read -r line; do
        case $line in
        s.*:) told=${line%:} ;;
        '' | *[!0-9.]*) ;;
        *) newest="$newest$told=$line/" ;;
        esac
    done <"$work/sids"
}

# find_changes: each file beside the version that was got; `operands` are those that have changed, `numbers` those of
# their scripts
find_changes() {
    numbers='' number=0
    eval "set -- $operands"
    operands='' count=0
    for operand; do
        split_operand "$operand"
        number=$((number + 1))
        if find_edit && has_changed "$operand"; then
            add_operand "$operand"
            numbers="$numbers $number"
        fi
    done
}

# has_changed OPERAND: its script, in the file of `number`, has something
has_changed() {
    case "$lists$newest" in
    /*"/$name=$got/"* | "/$name=$got/"*) ;;
    *) (give_base) >"$work/base/$module" || { join_status $? && return 1; } ;;
    esac
    diff -a -e "$work/base/$module" "./$module" >"$work/$number" 2>"$work/told"
    compared=$?
    if [ "$compared" -gt 1 ] && ! grep -q 'No newline' "$work/told"; then
        cat "$work/told" >&2
        join_status 1
        return 1
    fi
    [ "$compared" != 1 ] || [ -s "$work/$number" ] || refuse_commit "$1: diff says nothing of how $module has changed"
    [ -s "$work/$number" ]
}

# one comment for all; in the words of a group it is one line
ask_once() {
    ask
    ! is_given y || answered=$value_y
    is_one_line "$answered"
    comment=$answered
}

is_one_line() {
    case $1 in
    *"
"*)
        echo 'sccs: commit: the comment is one line' >&2
        exit 2
        ;;
    esac
}

# count_lines: `lines_N` is how many lines the script N has
count_lines() {
    # (the numbers are split)
    # shellcheck disable=SC2086
    (cd -- "$work" && exec wc -l $numbers) >"$work/counts" || exit
    while read -r lines number; do
        case $number in *[!0-9]*) ;; *) eval "lines_$number=\$lines" ;; esac
    done <"$work/counts"
}

# commit_folders: the files of one folder that follow one another are a group
commit_folders() {
    calling='' parts=''
    eval "set -- $operands"
    for operand; do
        split_operand "$operand"
        find_edit || continue
        number=${numbers# } number=${number%% *} numbers=${numbers#*"$number"}
        if [ -n "$parts" ] && [ "$folder" != "$calling" ]; then
            commit_group
            parts=
        fi
        calling=$folder
        add_entry "$operand"
    done
    commit_group
}

# add_entry OPERAND: how many words and lines of script it has, and the words of the delta; the script follows
add_entry() {
    entry=$1
    set -- delta "-r$new" "-y$comment"
    [ -z "$value_m" ] || set -- "$@" "-m$value_m"
    [ -z "$asked_mrs" ] || ! wants_mrs "$entry" || set -- "$@" "-m$asked_mrs"
    eval "lines=\$lines_$number"
    {
        printf '@ %d %d\n' $(($# + 1)) "$lines"
        printf '%s\n' "$@" "$name"
    } >"$work/$number.head"
    parts="$parts $number.head $number"
}

commit_group() {
    # (the parts are split)
    # shellcheck disable=SC2086
    (cd -- "$work" && exec cat $parts) >"$work/group" || exit
    explained "$calling" group <"$work/group"
    join_status $?
}
