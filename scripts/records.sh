# Sourced by the scripts beside it, which set root and script: what berth and recount are called
# with, and a sheet's records.
export LC_ALL=C # a line is bytes, whatever they say where the script runs

stop() {
    echo "$script: $1" >&2
    exit 1
}

misused() {
    echo "$script: $1" >&2
    print_use >&2
    exit 2
}

# The release is the topmost of the page of changes.
print_release() {
    local release
    release=$(sed -n '/^## Release [0-9]/{s/^## Release \([0-9]*\).*/\1/p;q;}' "$root/CHANGELOG.md" 2> /dev/null) || release=
    echo "$script, release ${release:-unknown}"
}

# Takes the script's arguments: file is the sheet, - for standard input, and name what messages
# call it.
take_arguments() {
    local word options=yes files=()
    for word in "$@"; do
        case $options$word in
            yes--) options=no ;;
            yes-h | yes--help)
                print_use
                exit
                ;;
            yes--version)
                print_release
                exit
                ;;
            yes-?*) misused "there is no option ${word//[[:cntrl:]]/?}" ;;
            *) files+=("$word") ;;
        esac
    done
    [ "${#files[@]}" -le 1 ] || misused "one sheet at a time, not ${#files[@]}"
    [ "${#files[@]}" -eq 1 ] || [ ! -t 0 ] || misused "no sheet is named"
    file=${files[0]--}
    [ -n "$file" ] || misused "the sheet's name is empty"
    name=${file//[[:cntrl:]]/?}
}

# Makes the sheet standard input.
open_sheet() {
    if [ "$file" = - ]; then
        name="standard input"
        [ -e /dev/stdin ] || stop "$name is closed"
        [ ! -d /dev/stdin ] || stop "$name is a folder, not a sheet"
        [ ! -t 0 ] || echo "$script: reading a sheet from the keyboard; Ctrl-D on a line of its own ends it" >&2
        return
    fi
    [ -e "$file" ] || stop "there is no file $name"
    [ ! -d "$file" ] || stop "$name is a folder, not a sheet"
    [ -r "$file" ] || stop "$name may not be read"
    exec < "$file"
}

# A folder for what is read and written meanwhile.
make_room() {
    room=$(mktemp -d)
    trap 'rm -rf "$room"' EXIT
}

# Reads the sheet on standard input. Of each line, lines has all, its line feed too, and records its
# record, empty where it has none. At a wrong line the script ends.
read_sheet() {
    local text line record feed=$'\n'
    local record_or_none='^([0-9A-Fa-f]{8})?$'
    # (A carriage return with nothing but blanks or a comment after it is a blank.)
    local lone_return=$'\r[[:space:]]*[^[:space:]#]'
    lines=() records=() number=0
    cat > "$room/text" || stop "$name can't be read"
    if IFS= read -r -d '' text < "$room/text"; then
        wrong_text "$text"
    fi
    # The last line may lack the line feed.
    while IFS= read -r line || { feed= && [ -n "$line" ]; }; do
        number=$((number + 1))
        if [[ $line == *$'\r'* && $line =~ $lone_return ]]; then
            wrong_line "${line%%$'\r'*}" "ends with a carriage return alone; a line ends with a line feed (LF or CRLF)"
        fi
        record=${line%%#*}
        record=${record//[[:space:]]/}
        [[ $record =~ $record_or_none ]] || wrong_record "${line%%#*}" "$record"
        lines+=("$line$feed")
        records+=("$record")
    done < "$room/text"
}

# Ends the script, since line number is wrong: $1 is what matters of it, and $2 says what that does
# and what was expected.
wrong_line() { stop "$name, line $number: $(shown "$1") $2"; }

# The text with a NUL byte, by what stands before it.
wrong_text() {
    local feeds=${1//[!$'\n']/}
    number=$((${#feeds} + 1))
    case $1 in
        $'\xFF\xFE'* | $'\xFE\xFF'*) stop "$name is in UTF-16; save it as plain text (ASCII or UTF-8)" ;;
        *) wrong_line "${1##*$'\n'}" "is followed by a NUL byte; save the sheet as plain text (ASCII or UTF-8)" ;;
    esac
}

# The record $2, without its blanks, of a line that has $1 before its comment.
wrong_record() {
    local text=$1 record=$2 digits=${#2} other
    text=${text#"${text%%[![:space:]]*}"}
    text=${text%"${text##*[![:space:]]}"}
    case $record in
        $'\xEF\xBB\xBF'*) wrong_line "$text" "begins with a byte order mark; save the sheet without one" ;;
        0[xX]*) wrong_line "$text" "begins with ${record:0:2}; a record is eight hexadecimal digits alone" ;;
        *[!0-9A-Fa-f]*)
            other=$(first_of "${record#"${record%%[!0-9A-Fa-f]*}"}")
            wrong_line "$text" "has $(shown "$other"), which is no hexadecimal digit; a record has eight, and a comment begins with #"
            ;;
    esac
    [ $((digits % 8)) -ne 0 ] ||
        wrong_line "$text" "has $digits hexadecimal digits, as $((digits / 8)) records have; each record has a line of its own"
    [ "$digits" -ne 1 ] || wrong_line "$text" "has 1 hexadecimal digit; a record has eight"
    wrong_line "$text" "has $digits hexadecimal digits; a record has eight"
}

# The first character, if it is printable ASCII, else the bytes up to the next that is.
first_of() {
    local bytes=${1%%[[:print:]]*}
    printf '%s' "${bytes:-${1:0:1}}"
}

# The text as it may be printed: in quotes, at most 40 bytes, and those that are no printable ASCII
# by their numbers.
shown() {
    local byte code at text=""
    for ((at = 0; at < ${#1} && at < 40; at++)); do
        byte=${1:at:1}
        if [[ $byte != [[:print:]] ]]; then
            printf -v code %d "'$byte"
            printf -v byte '\\x%02X' $((code & 255))
        fi
        text+=$byte
    done
    [ "${#1}" -le 40 ] || text+=...
    printf "'%s'" "$text"
}
