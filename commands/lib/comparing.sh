# shellcheck shell=sh disable=SC2034,SC2119,SC2120,SC2154
# Differences of versions.

# what `diff` of this command takes beside sccsdiff's own options: all that begin with a dash
sccsdiff_command() {
    first='' second='' passed='' operands='' count=0 paged=''
    while [ $# -gt 0 ]; do
        case $1 in
        -r) take_version "${2:-}" && shift ;;
        -r*) take_version "${1#-r}" ;;
        -p) paged=1 ;;
        --) shift && break ;;
        -?*) pass_option "$1" ;;
        *) add_operand "$1" ;;
        esac
        shift
    done
    for word; do
        add_operand "$word"
    done
    if [ -z "$second" ] || [ -z "$operands" ]; then
        echo 'usage: sccsdiff -rSID1 -rSID2 [-p] [options of diff] s.file ...' >&2
        exit 2
    fi
    [ -z "$verb" ] || store_operands
    expand_operands
    each compare_versions
    finish
}

take_version() {
    case $1 in
    '' | *[!0-9.]*)
        echo "sccsdiff: $1: no SID" >&2
        exit 2
        ;;
    esac
    if [ -z "$first" ]; then
        first=$1
    else
        second=$1
    fi
}

pass_option() {
    quote "$1"
    passed="$passed $quoted"
}

# compare_versions OPERAND: with -p by pages
compare_versions() {
    need_work
    get_version "$first" && get_version "$second" || return
    if [ -z "$paged" ]; then
        printf '\n------- %s -------\n' "$module"
        compare "$work/$first/$module" "$work/$second/$module" || [ $? = 1 ]
    else
        compare "$work/$first/$module" "$work/$second/$module" >"$work/difference" || [ $? = 1 ] || return 2
        pr -h "$name: $first vs. $second" <"$work/difference"
    fi
}

# get_version SID [LIST..]: the version, unexpanded, as a file in a folder named after it
get_version() {
    mkdir -p "$work/$1" || return
    version=$1
    shift
    in_folder "$folder" get -k -p -s "-r$version" "$@" -- "$name" >"$work/$version/$module" 2>"$work/told"
    set -- $?
    tell_refusals "$folder" "$1" <"$work/told"
    return "$1"
}

# compare OLD NEW: by diff, with the options in `passed`
compare() {
    eval "diff $passed -- \"\$1\" \"\$2\""
}
