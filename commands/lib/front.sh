# shellcheck shell=sh disable=SC2034,SC2119,SC2120,SC2154
# The front end: words for the cycle of an edit, over the folder SCCS or the current one.

front() {
    sccs_folder=SCCS above=
    find_project
    while [ $# -gt 0 ]; do
        case $1 in
        -diff) set -- diffs "$@" && shift 2 && set -- diffs "$@" && break ;;
        -d) above=${2:-} && shift ;;
        -d*) above=${1#-d} ;;
        -p) sccs_folder=${2:-} && shift ;;
        -p*) sccs_folder=${1#-p} ;;
        -r) ;;
        *) break ;;
        esac
        shift
    done
    if [ $# = 0 ]; then
        echo 'usage: sccs [-r] [-d path] [-p folder] word [option ...] [file ...]' >&2
        exit 2
    fi
    verb=$1
    shift
    case ${1:-} in
    --help | --version | -V)
        load telling
        if [ "$1" = --help ] && ! [ -x "$here/$verb" ]; then
            need_work
            tell_help "$verb"
            exit
        fi
        tell_about "$verb" "$1"
        ;;
    esac
    front_word "$@"
    finish
}

# PROJECTDIR: a path, or the login of one whose folder src has the project
find_project() {
    case ${PROJECTDIR:-} in
    '') ;;
    /*) above=$PROJECTDIR ;;
    *[!A-Za-z0-9_-]*) ;;
    *)
        eval "home=~$PROJECTDIR"
        for above in "$home/src" "$home/source"; do
            [ ! -d "$above" ] || return 0
        done
        ;;
    esac
}

# front_word WORD..: by `verb`
front_word() {
    case $verb in
    get | unget | sact | prs | val | rmdel | cdc) hand_words "$verb" "$@" ;;
    edit) hand_words get "$@" ;;
    prt) hand_words prs "$@" ;;
    what) what_command "$@" ;;
    delta | delget | deledit) load adding && hand_delta "$@" ;;
    branch) begin_branch "$@" ;;
    tree) load drawing && show_tree "$@" ;;
    log) load drawing && show_log "$@" ;;
    admin) load changing && hand_words admin "$@" ;;
    batch | group | soak)
        [ "$verb" != group ] || shielded=1
        in_folder . "$verb" "$@" || join_status $?
        ;;
    import)
        shielded=1
        explained . import "$@" || join_status $?
        ;;
    recover) recover_files "$@" ;;
    sccsdiff) load comparing && sccsdiff_command "$@" ;;
    help)
        need_work
        load telling
        tell_help "$@"
        ;;
    create | enter | unedit | fix | info | check | tell | clean | diffs | print | commit)
        load cycle
        cycle_word "$@"
        ;;
    *)
        echo "sccs: $verb: no such word; sccs(1) lists them" >&2
        status=2
        ;;
    esac
}

# takes_of UTILITY: sets `takes` to the letters of its options, as read_words takes them
takes_of() {
    case $1 in
    admin) takes='a:d:e:f:m:r:i?t?y?' ;;
    get) takes=a:${get_takes}G: ;;
    delta | cdc) takes='m:r:y?' ;;
    unget | rmdel) takes=r: ;;
    prs) takes='c:d:r?' ;;
    val) takes=m:r:y: ;;
    *) takes= ;;
    esac
}

# stored FILE: sets `stored` to the path of its s-file, and `file` to its name
stored() {
    file=${1##*/}
    path=${1%"$file"}
    case $1 in
    /*) ;;
    *) path=${above:+${above%/}/}$path ;;
    esac
    case $file in
    s.?*) stored=$path$file ;;
    *)
        stored=${path}s.$file
        [ ! -d "$path$sccs_folder" ] || stored=$path$sccs_folder/s.$file
        ;;
    esac
}

# store_operands: the operands, by their s-files; a folder stands for its folder SCCS
store_operands() {
    eval "set -- $operands"
    operands='' count=0
    for operand; do
        stored "$operand"
        if [ "$operand" = - ]; then
            add_operand -
        elif [ -d "$operand" ] && ! [ -e "$stored" ]; then
            find_folder "$operand"
            add_operand "$found_folder"
        else
            add_operand "$stored"
        fi
    done
}

# find_folder [FOLDER]: sets `found_folder` to where the s-files of a folder, or of the current one, are
find_folder() {
    found_folder=${above:+${above%/}/}${1:-.}
    case ${1:-} in /*) found_folder=$1 ;; esac
    [ ! -d "$found_folder/$sccs_folder" ] || found_folder=$found_folder/$sccs_folder
    found_folder=${found_folder#./}
}

# map_words UTILITY WORD..: `options` and `operands` of the utility, these by their s-files
map_words() {
    takes_of "$1"
    shift
    read_words "$takes" '' "$@"
    store_operands
}

# hand_words UTILITY WORD..: the command of that utility
hand_words() {
    map_words "$@"
    [ "$verb" != edit ] || [ "$count" = 0 ] || add_option -e
    eval "${1}_command $options -- $operands"
}

# delta, and with delget and deledit a get of each file behind it; the letters of get are its. What deledit has stored
# stays as it is, where nothing else is asked for.
hand_delta() {
    if [ "$verb" = delta ]; then
        map_words delta "$@"
        eval "delta_command $options -- $operands"
    fi
    read_words 'm:r:y?c:i:x:' mnpry "$@"
    got_by=$options
    case $verb:$got_by in
    delget:*) keeping='' ;;
    deledit: | "deledit: '-s'") keeping=-n got_by="$got_by -e -g" ;;
    *) keeping='' got_by="$got_by -e" ;;
    esac
    read_words 'm:r:y?c:i:x:' bcegiklstx "$@"
    case $given in *s*) add_option -s && got_by="$got_by -s" ;; esac
    store_operands
    [ -n "$operands" ] || eval "delta_command $options"
    (eval "delta_command $options $keeping -- $operands") || { join_status $? && return; }
    eval "get_command $got_by -- $operands"
}

# branch: the edit of a branch is begun, which a delta without changes makes, and goes on behind it
begin_branch() {
    map_words get "$@"
    (eval "get_command -e -b -g -s $options -- $operands") || { join_status $? && return; }
    load adding
    load placing
    each begin_here
}

begin_here() {
    find_edit || return
    in_folder "$folder" delta -s "-r$new" "-ybranch $new" -- "$name" </dev/null || return
    eval "explained \"\$folder\" get -e -t \"-r${new%.*}\" -- \"\$name\""
}

# recover isn't a command of its own, since what is stopped is a file's. A folder, and without operands that of the
# files, stands also for names of which only a lock or a working file is there.
recover_files() {
    map_words recover "$@"
    [ -n "$operands" ] || { find_folder && add_operand "$found_folder"; }
    shielded=1
    eval "set -- $operands"
    operands='' count=0
    for operand; do
        add_operand "$operand"
        [ ! -d "$operand" ] || add_left "${operand%/}"
    done
    hand_on recover hand_own
}

# add_left FOLDER: the names of a folder that have working files and no s-file
add_left() {
    left_folder=$1 added=' '
    set +f
    set -- "$1"/[zxq].?*
    set -f
    for file; do
        module=${file##*/}
        module=${module#?.}
        if [ -f "$file" ] && [ ! -e "$left_folder/s.$module" ]; then
            case $added in
            *" $module "*) ;;
            *)
                added="$added$module "
                add_operand "$left_folder/s.$module"
                ;;
            esac
        fi
    done
}
