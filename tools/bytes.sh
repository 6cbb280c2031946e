# Bytes on the shell's streams, with POSIX tools only. To be read by '.'.

# bytes HEX: the bytes of these hexadecimal digits; blanks between them are ignored
bytes() {
    printf '%b' "$(printf '%s' "$1" | tr -d ' ' | sed 's/../&\n/g' | while read -r digits; do
        [ -z "$digits" ] || printf '\\0%o' "0x$digits"
    done)"
}

# hex: standard input as hexadecimal digits
hex() { od -An -v -tx1 | tr -d ' \n'; }

# filled COUNT CHARACTER: a character COUNT times
filled() { head -c "$1" /dev/zero | tr '\000' "$2"; }

# request FLAGS TYPE COOKIE OFFSET LENGTH: the head of a request, all numbers but the first in decimal
request() {
    bytes "$(printf '25609513%s%04x%016x%016x%08x' "$1" "$2" "$3" "$4" "$5")"
}

# reply COOKIE ERROR: a simple reply as hexadecimal digits, both numbers in decimal
reply() { printf '67446698%08x%016x' "$2" "$1"; }

# part FILE OFFSET COUNT: a part of a file as hexadecimal digits
part() { dd if="$1" bs=1 skip="$2" count="$3" 2>/dev/null | hex; }
