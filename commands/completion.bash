# shellcheck shell=bash
# Completion of sccs for bash: the words, their options, and the names of the files that have a history; of the
# commands by themselves; and of rcs2sccs and sccs2git.

_sccs_words='admin batch branch cdc check clean commit create deledit delget delta diffs edit enter fix get group help import info log print prs prt
    recover rmdel sact sccsdiff soak tell tree unedit unget val what'

# sets `folder` and `path`: the folder of s-files, and the -d that stands before names; gives the place of the word in
# `place`
_sccs_read_front() {
    folder=SCCS path='' place=1
    while [ "$place" -lt "$COMP_CWORD" ]; do
        case ${COMP_WORDS[place]} in
        -d) path=${COMP_WORDS[place + 1]-}/ && place=$((place + 1)) ;;
        -d*) path=${COMP_WORDS[place]#-d}/ ;;
        -p) folder=${COMP_WORDS[place + 1]-} && place=$((place + 1)) ;;
        -p*) folder=${COMP_WORDS[place]#-p} ;;
        -*) ;;
        *) return ;;
        esac
        place=$((place + 1))
    done
}

# the options of a word
_sccs_options() {
    case $1 in
    admin | create | enter) echo '-a -d -e -f -h -i -m -n -r -t -y -z' ;;
    get | edit | branch) echo '-a -b -c -e -G -g -i -k -m -n -p -r -s -t -x' ;;
    delta | delget | deledit) echo '-E -m -n -p -r -s -y' ;;
    commit) echo '-m -y' ;;
    unget | unedit) echo '-n -r -s' ;;
    rmdel | fix) echo '-r' ;;
    prs | prt | print) echo '-a -c -d -e -l -r' ;;
    val) echo '-m -r -s -y' ;;
    what) echo '-s' ;;
    cdc) echo '-m -r -y' ;;
    sccsdiff) echo '-r -p -u -c -b -w' ;;
    diffs) echo '-C -c -i -r -u -x' ;;
    info | check | tell) echo '-b -u' ;;
    clean) echo '-b' ;;
    esac
}

# the letters whose value is the next word
_sccs_valued() {
    case $1 in
    admin | create | enter) echo adefmr ;;
    get | edit) echo acGirx ;;
    delta | delget | deledit) echo mr ;;
    commit) echo m ;;
    unget | unedit | rmdel | fix | sccsdiff) echo r ;;
    prs | prt | print) echo cd ;;
    val) echo mry ;;
    cdc) echo mr ;;
    diffs) echo cirx ;;
    esac
}

# whether the word before the one to be completed is an option that wants a value
_sccs_wants_value() {
    local before=${COMP_WORDS[COMP_CWORD - 1]} valued
    valued=$(_sccs_valued "$1")
    [ -n "$valued" ] && [[ $before == -[A-Za-z]* && $valued == *"${before: -1}"* ]] && [ $((COMP_CWORD - 1)) -gt "$place" ]
}

# _sccs_names LETTER FOLDER: the names of the files in a folder whose s-file or p-file is there, one a line
_sccs_names() {
    local file
    for file in "$2/$folder/$1".* "$2/$1".*; do
        [ ! -f "$file" ] || echo "${file##*/"$1".}"
    done
}

# _sccs_files LETTER: the plain names whose s-file or p-file is there, below the folder that is typed, and folders
_sccs_files() {
    local typed=${COMP_WORDS[COMP_CWORD]} before='' name
    [[ $typed != */* ]] || before=${typed%/*}/
    while IFS= read -r name; do
        [[ $name != "${typed#"$before"}"* ]] || COMPREPLY+=("$before$name")
    done < <(_sccs_names "$1" "$path${before:-.}" | sort -u)
    while IFS= read -r name; do
        [ "${name##*/}" = "$folder" ] || COMPREPLY+=("${name#"$path"}")
    done < <(compgen -d -- "$path$typed")
    compopt -o filenames 2>/dev/null
}

# the s-files that RCS files of this folder are to become
_sccs_imports() {
    local file
    for file in *,v; do
        [[ ! -f $file || s.$file != "${COMP_WORDS[COMP_CWORD]}"* ]] || COMPREPLY+=("s.${file%,v}")
    done
}

# the words that are completed by files
_sccs_operands() {
    case $1 in
    commit | delta | delget | deledit | unget | unedit | sact | diffs) _sccs_files p ;;
    create | enter | what)
        mapfile -t COMPREPLY < <(compgen -f -- "${COMP_WORDS[COMP_CWORD]}")
        compopt -o filenames 2>/dev/null
        ;;
    import) _sccs_imports ;;
    help) mapfile -t COMPREPLY < <(compgen -W "$_sccs_words" -- "${COMP_WORDS[COMP_CWORD]}") ;;
    batch | group | soak | check | tell | info) ;;
    *) _sccs_files s ;;
    esac
}

_sccs() {
    local folder path place word typed=${COMP_WORDS[COMP_CWORD]}
    COMPREPLY=()
    _sccs_read_front
    word=${COMP_WORDS[place]-}
    if [ "$place" -ge "$COMP_CWORD" ]; then
        case ${COMP_WORDS[COMP_CWORD - 1]} in
        -d) mapfile -t COMPREPLY < <(compgen -d -- "$typed") ;;
        -p) ;;
        *) mapfile -t COMPREPLY < <(compgen -W "$_sccs_words -d -p -r" -- "$typed") ;;
        esac
    elif _sccs_wants_value "$word"; then
        return
    elif [[ $typed == -* ]]; then
        mapfile -t COMPREPLY < <(compgen -W "$(_sccs_options "$word")" -- "$typed")
    else
        _sccs_operands "$word"
    fi
}

complete -F _sccs sccs

# the commands by themselves take s-files and folders
_sccs_command() {
    local place=0 typed=${COMP_WORDS[COMP_CWORD]} word=${1##*/}
    COMPREPLY=()
    if _sccs_wants_value "$word"; then
        return
    elif [[ $typed == -* ]]; then
        mapfile -t COMPREPLY < <(compgen -W "$(_sccs_options "$word") --help --version" -- "$typed")
    else
        mapfile -t COMPREPLY < <(compgen -d -- "$typed"; compgen -f -X '!*s.*' -- "$typed")
        compopt -o filenames 2>/dev/null
    fi
}

complete -F _sccs_command admin cdc delta get prs rmdel sact sccsdiff unget val

# options, folders and RCS files
_rcs2sccs() {
    local typed=${COMP_WORDS[COMP_CWORD]}
    if [[ $typed == -* ]]; then
        mapfile -t COMPREPLY < <(compgen -W '-n -v --levels' -- "$typed")
    else
        mapfile -t COMPREPLY < <(compgen -d -- "$typed"; compgen -f -X '!*,v' -- "$typed")
        compopt -o filenames 2>/dev/null
    fi
}

complete -F _rcs2sccs rcs2sccs

# options, folders and s-files
_sccs2git() {
    local typed=${COMP_WORDS[COMP_CWORD]}
    if [[ $typed == -* ]]; then
        mapfile -t COMPREPLY < <(compgen -W "$(sccs2git --help 2>/dev/null | grep -oE -e '--[a-z-]+' | sort -u)" -- "$typed")
    else
        mapfile -t COMPREPLY < <(compgen -d -- "$typed"; compgen -f -X '!*s.*' -- "$typed")
        compopt -o filenames 2>/dev/null
    fi
}

complete -F _sccs2git sccs2git
