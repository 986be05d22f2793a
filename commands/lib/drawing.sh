# shellcheck shell=sh disable=SC2016,SC2034,SC2154
# Pictures of histories: the deltas of a file as a tree, and those of several files in time order.

# every delta of a file, also those that were removed: a line that begins with a word which no comment can know, and
# those of its comment
all_deltas() {
    in_folder "$folder" prs -a -l -c69 "-d${work##*.} :DT: :I: :D: :T: :P: :DS: :DP:\\n:C:" -- "$name"
}

# what both pictures have of a delta: its moment with the year's century, and the first line of its comment
deltas_in_awk='
    function moment(date, time) { return (date < "69" ? "20" : "19") date " " time }
    $1 == mark {
        last = $7; begun = 1; order[++count] = last
        kind[last] = $2; sid[last] = $3; when[last] = moment($4, $5); gsub("/", "-", when[last]); login[last] = $6; before[last] = $8
        next
    }
    begun { comment[last] = $0; begun = 0 }'

# draw_tree OPERAND: the oldest delta first, a branch below the delta that it begins at
draw_tree() {
    heading "$1"
    all_deltas >"$work/deltas" || return
    : >"$work/edits"
    ! [ -f "$folder/p.$module" ] || sed 's/^/edited /' "$folder/p.$module" >"$work/edits"
    awk -v mark="${work##*.}" "$deltas_in_awk"'
        function level(text, parts) { return split(text, parts, ".") }
        $1 == "edited" && !count { edited[$2] = edited[$2] "  (" $4 " edits " $3 ")"; next }
        # whether a delta goes on where the one before it stands
        function goes_on(one, other, first, second) {
            split(sid[one], first, "."); split(sid[other], second, ".")
            return level(sid[one]) == level(sid[other]) && (level(sid[one]) == 2 || first[1] "." first[2] "." first[3] == second[1] "." second[2] "." second[3])
        }
        function draw(one, indent, i, next_one, many, behind) {
            while (one != "") {
                print indent sid[one] "  " when[one] "  " login[one] "  " comment[one] (kind[one] == "R" ? "  (removed)" : "") edited[sid[one]]
                next_one = ""
                many = split(made_on[one], behind, " ")
                for (i = 1; i <= many; i++)
                    if (next_one == "" && goes_on(one, behind[i])) next_one = behind[i]
                    else draw(behind[i], indent "|   ")
                one = next_one
            }
        }
        END {
            for (j = count; j >= 1; j--) made_on[before[order[j]]] = made_on[before[order[j]]] " " order[j]
            roots = split(made_on[0], root, " ")
            for (j = 1; j <= roots; j++) draw(root[j], "")
        }' "$work/edits" "$work/deltas"
}

# log_file OPERAND: its deltas that are there, a line each, into a file of all
log_file() {
    all_deltas >"$work/deltas" || return
    awk -v mark="${work##*.}" -v file="${1%"$name"}$module" "$deltas_in_awk"'
        END { for (i = 1; i <= count; i++) if (kind[order[i]] == "D") print when[order[i]] "  " login[order[i]] "  " file " " sid[order[i]] "  " comment[order[i]] }' "$work/deltas" >>"$work/log"
}

# the newest first
show_log() {
    need_work
    : >"$work/log"
    map_words log "$@"
    [ -n "$operands" ] || { find_folder && add_operand "$found_folder"; }
    expand_operands
    each log_file
    sort -r "$work/log"
}

show_tree() {
    need_work
    map_words log "$@"
    [ -n "$operands" ] || { echo 'usage: sccs tree file ...' >&2 && exit 2; }
    expand_operands
    each draw_tree
}
