# Sourced by the programs in this folder: closed streams, messages, options, reading a record, and messages for refused records. Before sourcing it a
# program sets `name` to its own name; it also defines a function `usage` and, if it has options of its own, `own_option`.
# shellcheck shell=bash
set -euo pipefail
export LC_ALL=C

# A message that cannot be printed leaves the exit status as it is.
message() { printf '%s\n' "$1" >&2 || :; }

say() { message "$name: $1"; }

fail() {
    say "$1"
    exit "$2"
}

# If standard input, output or error is closed, no pipe or file of this script may take its descriptor.
[ -e /dev/fd/2 ] || exec 2>/dev/null
has_output=true
[ -e /dev/fd/1 ] || { has_output=false && exec >/dev/null; }
has_input=true
[ -e /dev/fd/0 ] || { has_input=false && exec </dev/null; }

root=$(CDPATH='' cd -- "$(dirname -- "${BASH_SOURCE[0]}")/.." && pwd)
values=$root/target/bin/refusal_values # its source documents its output
worst=0

# Raises the exit status to $1: the highest that applies is used.
at_least() { [ "$worst" -ge "$1" ] || worst=$1; }

needs_output() { $has_output || fail 'cannot write the standard output' 3; }

put() { printf '%s\n' "$1" 2>/dev/null || fail 'cannot write the standard output' 3; }

# Prints a file name as one line of text.
shown() {
    case $1 in
    *[[:cntrl:]]*) printf '%s' "${1@Q}" ;;
    *) printf '%s' "$1" ;;
    esac
}

# Handles the option $1 of the program; fails if the program has no such option.
own_option() { false; }

# Handles the options and sets `files` to the names after them.
options() {
    while [ $# -gt 0 ]; do
        case $1 in
        --help) needs_output && put "$(usage)" && exit 0 ;;
        --) shift && break ;;
        -?*) own_option "$1" || fail "there is no option '$(shown "$1")'; bin/$name --help" 2 ;;
        *) break ;;
        esac
        shift
    done
    files=("$@")
}

# Ends if no file is named and the standard input is a terminal.
needs_file() {
    local text
    if [ "${#files[@]}" -gt 0 ] || ! $has_input || [ ! -t 0 ]; then return; fi
    text=$(usage)
    fail "no file is named, and the standard input is a terminal; ${text%%$'\n'*}" 2
}

# Builds the program, and the others named, if needed.
build() { "$root/bin/build" "$name" "$@" </dev/null >&2 || exit 2; }

# Builds the program, and refusal_values for the messages, if needed; creates the temporary folder. What is in `temporary` is removed at the end.
begin() {
    build refusal_values
    work=$(mktemp -d) || fail 'cannot make a temporary folder' 2
    temporary=("$work")
    trap 'rm -rf -- "${temporary[@]}"' EXIT
}

# Reports that the file $1 cannot be read; the reason is at the end of the message $2.
not_read() {
    local what='the standard input'
    [ "$1" = - ] || what="'$(shown "$1")'"
    say "cannot read $what${2:+: ${2##*: }}"
}

# Is there a standard input? If not, reports it.
needs_input() { $has_input || { not_read - 'it is closed' && return 1; }; }

# Copies the record $1 to the temporary folder. A record has at most 65,535 bytes; one more byte is read to detect a longer input.
take() {
    local why
    if [ "$1" = - ]; then
        needs_input || return
        why=$(head -c 65536 2>&1 >"$work/record") || { not_read - "$why" && return 1; }
    else
        why=$(head -c 65536 -- "$1" 2>&1 >"$work/record") || { not_read "$1" "$why" && return 1; }
    fi
}

# Prints a message of tables/refusals.tsv with its placeholders replaced: NAMES is the column of values, the numbers are what $values prints.
filled() { # MESSAGE NAMES FIRST SECOND MINIMUM
    awk -v message="$1" -v names="$2" -v first="$3" -v second="$4" -v minimum="$5" '
        function number(bits,    exponent, fraction) { # of a finite float, from its bit pattern
            exponent = int(bits / 8388608) % 256
            fraction = bits % 8388608
            fraction = exponent ? (fraction + 8388608) * 2 ^ (exponent - 150) : fraction * 2 ^ -149
            return bits >= 2147483648 ? -fraction : fraction
        }
        function fill(name, value,    at) {
            if (at = index(message, name)) message = substr(message, 1, at - 1) value substr(message, at + length(name))
        }
        BEGIN {
            n = split(names, name, " ")
            for (digits = 3; digits < 10; digits++) { # nine digits distinguish any two floats
                distinct = 1
                split("", seen)
                for (i = 1; i <= n; i++) {
                    split(name[i], part, ":")
                    value[i] = sub(/^\+/, "", part[1]) ? minimum : i == 1 ? first : second # + marks the value that the record has
                    if (part[2] == "f32") {
                        value[i] = sprintf("%." digits "g", number(value[i]))
                        if (value[i] in seen) distinct = 0
                        seen[value[i]] = 1
                    }
                    text[i] = "{" part[1] "}"
                }
                if (distinct) break
            }
            for (i = 1; i <= n; i++) fill(text[i], value[i])
            print message
        }'
}

# Prints the message for the line $1 that the program printed; the record is in the temporary folder.
words() {
    local number value names='' message='' of first second minimum
    read -r _ number value <<<"$1"
    { read -r names && read -r message; } < <(awk -F '\t' -v number="$number" '$1 == number { print $4; print $6 }' "$root/tables/refusals.tsv") || true
    case $names in
    '') ;;
    bytes:*) message=$(filled "$message" "$names" "$value" '' '') ;; # the line has the value, and there is no record
    *)
        read -r of first second minimum < <("$values" <"$work/record") || return 1
        [ "$of" = "$number" ] || return 1
        message=$(filled "$message" "$names" "$first" "$second" "$minimum")
        ;;
    esac
    printf 'refused %s%s' "$number" "${message:+: $message}"
}

# Prints the message for a refused record on standard error: $1 is the prefix, $2 the line that the program printed.
tell() {
    local text
    text=$(words "$2") || { say "$values failed" && at_least 2 && return; }
    message "$1$text"
}
