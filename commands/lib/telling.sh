# shellcheck shell=sh disable=SC2154
# What the commands say of themselves: their version, a line of use, and what the pages have of a word or a refusal.

# tell_about COMMAND WORD: ends with what --version, -V or --help asks for
tell_about() {
    case $2 in
    --help) tell_use "$1" ;;
    *) tell_version "$1" ;;
    esac
    exit
}

# the version, and what the program was made of
tell_version() {
    if [ -f "$here/VERSION" ]; then
        version=$here/VERSION made=$here/made-from
    else
        version=$here/../VERSION made=$here/../dist/made-from
    fi
    printf '%s (sccs) ' "$1"
    cat "$version" "$made"
}

# find_page NAME: sets `page` to its path, in the clone or where it is installed
find_page() {
    page=$here/../man/$1
    [ -f "$page" ] || page=$here/../../share/man/man${1##*.}/$1
    [ -f "$page" ] || { echo "sccs: the page $1 isn't here" >&2 && exit 1; }
}

# tell_use COMMAND: how it is called, as its page has it
tell_use() {
    case $1 in
    sccs | rcs2sccs | sccs2git) find_page "$1.1" ;;
    *) find_page "sccs-$1.1" ;;
    esac
    printf 'usage:'
    awk '/^\.Sh / { inside = $2 == "SYNOPSIS"; next } inside' "$page" | as_text "${page##*/}" 1
}

# tell_help [WORD]: the words; what a refusal means, by its number; or a word
tell_help() {
    case ${1:-} in
    '')
        tell_use sccs
        find_page sccs.1
        printf 'words:'
        awk '$1 == ".It" && $2 == "Cm" { printf " %s", $3 } END { print "" }' "$page"
        echo 'sccs help WORD tells of a word, sccs help NUMBER of a refusal'
        ;;
    [0-9][0-9] | [1-9])
        find_page sccs-refusals.7
        number=0${1#0}
        number=${number#"${number%??}"}
        awk -v end="($number)\"" '/^\.It / { inside = index($0, end) > 0 } /^\.El/ { inside = 0 } inside' "$page" >"$work/text"
        [ -s "$work/text" ] || { echo "sccs: no refusal has the number $1" >&2 && exit 1; }
        as_text '' 0 <"$work/text" | fold -s -w 80
        ;;
    *)
        if [ -f "$here/$1" ] && [ -x "$here/$1" ]; then
            tell_use "$1"
            return
        fi
        find_page sccs.1
        awk -v word="$1" '/^\.(It|El)/ { inside = $1 == ".It" && $2 == "Cm" && $3 == word } inside' "$page" >"$work/text"
        [ -s "$work/text" ] || { echo "sccs: $1: no such word; sccs help lists them" >&2 && exit 1; }
        as_text '' 0 <"$work/text" | fold -s -w 80
        ;;
    esac
}

# as_text NAME EACH: a piece of a page without its macros, of which each call begins a line where EACH is 1
as_text() {
    awk -v name="${1%.*}" -v each="$2" '
        function put(text) { line = line (line == "" || glue ? "" : " ") text; glue = 0 }
        function macro(count, i, close_all) {
            for (i = 1; i <= count; i++) {
                if (word[i] == "Op" || word[i] == "Oo") { put("["); glue = 1; if (word[i] == "Op") close_all = close_all "]" }
                else if (word[i] == "Oc") { glue = 1; put("]") }
                else if (word[i] == "Ns") glue = 1
                else if (word[i] == "Fl") { flag = "-"; if (i == count || word[i + 1] == "Ns") put("-") }
                else if (word[i] == "Nm") { if (i == count) put(name) }
                else if (word[i] ~ /^[.,:;)]$/) { glue = 1; put(word[i]) }
                else if (word[i] == "Ar") { flag = ""; if (i == count) put("file ...") }
                else if (word[i] ~ /^(It|Li|Sy|Cm|Ev|Em|Pa|Ql|Ic)$/) flag = ""
                else put(flag word[i])
            }
            flag = ""
            if (close_all != "") { glue = 1; put(close_all) }
        }
        function flush() { if (line != "") print line; line = ""; glue = 0 }
        { gsub(/\\&/, "") }
        $1 == ".Nm" && each && NR > 1 { flush(); line = "      "; glue = 0 }
        $1 == ".Nm" && each && NR == 1 { line = " "; glue = 1 }
        $1 == ".Pp" { flush(); print ""; next }
        $1 ~ /^\.(Bd|Bl|Ed|El)$/ { flush(); next }
        /^\./ {
            text = substr($0, 2)
            gsub(/"/, "", text)
            count = split(text, word, " ")
            macro(count)
            if ($1 == ".It") { flush() }
            next
        }
        { put($0) }
        END { flush() }'
}
