# shellcheck shell=sh disable=SC2034,SC2119,SC2120,SC2154
# What a refusal means and what helps, in a line behind it. The numbered line stays as the program wrote it.

# explain_lines FOLDER STATUS: passes lines on; the folder is that of the files which they speak of
explain_lines() {
    while IFS= read -r line || [ -n "$line" ]; do
        case $line in
        "USAGE: "*) printf '%s: %s\n' "${verb:-$utility}" "${line#USAGE: }" ;;
        *) printf '%s\n' "$line" ;;
        esac
        case $line in
        "ERROR ["*"]: "*" ("[0-9][0-9]")") explain_refusal "$1" "$line" ;;
        "sccs: disk fault"*) explain_disk_fault "$1" ;;
        "sccs: write fault") helps "what was to be printed couldn't be written: a full disk, a closed pipe" ;;
        "sccs: read fault") helps "standard input couldn't be read; nothing was changed" ;;
        "sccs: want of memory") helps "there wasn't enough memory; no stored file was harmed" ;;
        "USAGE: unknown utility"*) helps "sccs(1) lists the commands" ;;
        "USAGE: malformed value"*) helps "a value isn't of its form, as -r1.2 is, or an operand can't be taken here" ;;
        esac
    done
}

helps() {
    printf 'sccs: %s\n' "$*"
}

# explain_refusal FOLDER LINE
explain_refusal() {
    number=${2##*(}
    number=${number%)}
    name=${2#ERROR \[}
    name=${name%%"]: "*}
    beside=${1%/}/
    [ "$beside" != ./ ] || beside=
    of=${name#s.}
    explain_number "$2"
}

# explain_number LINE: by `number`, `name` and `beside`, the path of its folder
explain_number() {
    case $number in
    01) explain_name ;;
    02) explain_lock ;;
    03) explain_missing ;;
    04) explain_stored ;;
    05) helps "files and input may have 1 GiB at most" ;;
    06) helps "the file doesn't begin as an s-file does" ;;
    07) helps "the file was changed by something else than these commands, or damaged: compare it with a copy" ;;
    08) helps "the file is damaged or was edited by hand, from that line on; get a copy back" ;;
    09) helps "the text is encoded (flag e), as other programs do with files that aren't text: it can be got, and not changed" ;;
    10) helps "${beside}p.$of, which holds the pending edits, isn't of its form at that line" ;;
    11) helps "that line of ${beside}p.$of names versions that $name doesn't have: it belongs to another file, or to an older copy" ;;
    12) helps "the file's users don't let ${LOGNAME:-nobody} in" ;;
    13) explain_no_edit ;;
    14) helps "name one of your edits by -r: $(pending_edits)" ;;
    15) helps "no delta has that number; the newest one: sccs get -g $of" ;;
    16) helps "a list of -i or -x names that version, which isn't there, or is on both lists" ;;
    17) helps "the flags f and c say which releases may be changed" ;;
    18) helps "the flag l locks that release" ;;
    19) helps "someone has begun the edit of that version: $(pending_edits)" ;;
    20 | 21 | 22) helps "the ed script doesn't fit the version that is edited; it is made by: diff -a -e OLD NEW" ;;
    23) helps "no line of a text may begin with the byte 1 (SOH), by which s-files mark their own lines" ;;
    24) helps "the flag i asks for a keyword such as %I% or %W% in the text" ;;
    25) helps "$of may hold changes: move it away, or compare it by: sccs diffs $of" ;;
    26) helps "$of isn't what the script makes of the version: it was changed meanwhile, or the script is another's" ;;
    27) helps "no flag has that letter, or not with that text: sccsfile(5) lists them" ;;
    28) helps "the flag v asks for MR numbers: give them by -m" ;;
    29) helps "without the flag v a file takes no MR numbers: leave -m away" ;;
    30) helps "the flag's text names a program or a keyword, which isn't looked at here: set the flag without a text" ;;
    31) helps "other versions rest on that one, or it is the first: take back the newer ones first" ;;
    32) helps "only who made that version, or who made the file, may take it back" ;;
    33) helps "no further number is left in this release; begin another by get -e -r" ;;
    34) helps "another program changed the file meanwhile: try again" ;;
    35) helps "$of,v is damaged from that byte on, or no RCS file: rlog may say more" ;;
    36) explain_revision "$1" ;;
    37) helps "that line of the revision's text or script, as $of,v has it, doesn't fit the text before it, or begins with the byte 1 (SOH)" ;;
    38) helps "a command on several files was stopped: finish or undo it by: sccs recover on one of them" ;;
    39) helps "the file sccs.intent says what a stopped group was doing, and can't be read: take the folder from a backup" ;;
    *) return 0 ;;
    esac
}

explain_name() {
    case $name in
    -*) helps "options stand before operands, and \`--\` ends them" ;;
    */*) helps "the program takes files of its folder; the command get, delta, .. take paths" ;;
    s.*) helps "that can't be the name of a file" ;;
    *) helps "the stored file of $name is named s.$name; the front end finds it: sccs get $name" ;;
    esac
}

explain_lock() {
    # shellcheck disable=SC2012
    holder=$(ls -ld "${beside}z.$of" 2>/dev/null | awk '{ print $3 " since " $6 " " $7 " " $8 }')
    helps "${beside}z.$of${holder:+ is that of $holder}: wait for the command that is at work, or, if it was stopped, sccs recover $of"
}

explain_stored() {
    if [ "${verb:-}" = import ]; then
        helps "$beside$name is there already, and stays as it is"
    else
        helps "$beside$name is stored already; without -i and -n admin changes its users, flags and description"
    fi
}

# explain_revision LINE
explain_revision() {
    if [ "${1#*revision 0 }" != "$1" ]; then
        helps "the description that $of,v has can't be kept: one of its lines begins with the byte 1 (SOH)"
    else
        helps "counted from the newest one in $of,v: its number (as 2.0 is, since no SID has a 0: rcs2sccs --levels makes 2.1 of it), date or author is unfit, or its entry or text is missing or stands twice"
    fi
}

explain_missing() {
    if [ "${verb:-}" = import ]; then
        helps "there is no $beside$of,v"
    elif [ -f "${beside}SCCS/$name" ]; then
        helps "it is in the folder SCCS: ${beside}SCCS/$name, or sccs get $of"
    elif [ -f "$beside$of" ]; then
        helps "$beside$of isn't stored yet: sccs create $of"
    else
        helps "there is no $beside$name, or no file that an option names"
    fi
}

# the edits that are pending on the file, as `1.1 to 1.2 by ann`
pending_edits() {
    while read -r got new login date time rest; do
        printf '%s' "${joint:-}$got to $new by $login since $date $time"
        joint=', '
    done 2>/dev/null <"${beside}p.$of"
}

explain_no_edit() {
    edits=$(pending_edits)
    if [ -z "$edits" ]; then
        helps "no version is being edited: begin by sccs edit $of, which keeps no change that $of has now"
    else
        helps "you are ${LOGNAME:-nobody}; pending are: $edits"
    fi
}

# explain_disk_fault FOLDER: which file of the names at hand can't be used
explain_disk_fault() {
    beside=${1%/}/
    if ! [ -w "$beside" ]; then
        helps "files can't be made in $1"
        return
    fi
    set +f
    set -- "$1" "$beside"[spxqyz].* ${module:+"$beside$module"}
    set -f
    shift
    for file; do
        if [ -h "$file" ] && ! [ -e "$file" ]; then
            helps "$file leads to no file"
        elif [ -e "$file" ] && ! [ -f "$file" ]; then
            helps "$file isn't a regular file"
        elif [ -e "$file" ] && ! [ -r "$file" ]; then
            helps "$file can't be read"
        fi
    done
    [ "$(df -Pk "$beside" 2>/dev/null | awk 'NR == 2 { print $4 }')" != 0 ] || helps "the disk is full"
    helps "when that is put right: sccs recover, for the file that was worked on"
}
