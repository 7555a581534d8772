#!/bin/sh
# Prints a script that loads an SGML or XML document: examples/from-sgml.sh FILE [NAME].
# NAME is what queries call the document, the file's name where it isn't given. What onsgmls says goes
# to standard error. docs/FORMATS.md tells which of its lines are read.
set -eu

fail() {
    echo "from-sgml.sh: $1" >&2
    exit 1
}

[ $# -eq 1 ] || [ $# -eq 2 ] || fail "the words are FILE [NAME]"
file=$1
name=${2:-$(basename -- "$file")}
if [ ! -f "$file" ] || [ ! -r "$file" ]; then
    fail "no file can be read at $file"
fi
case $name in
    *[!A-Za-z0-9_.-]*) fail "a document can't be named $name: give a NAME of letters, digits, _ - ." ;;
esac
[ ${#name} -le 64 ] || fail "a document's name has 64 bytes at most: give a shorter NAME"

# The parser, and the declaration by which it takes XML for what it is.
declaration=/usr/share/xml/declaration/xml.soc
if ! command -v onsgmls > /dev/null || [ ! -f "$declaration" ]; then
    apt-get install -y --no-install-recommends opensp sgml-data >&2 \
        || fail "onsgmls isn't here and apt-get can't install it: as root, apt-get install opensp sgml-data"
fi

# A file is XML unless it is named otherwise and doesn't say that it is.
xml=yes
case $file in
    *.sgml | *.sgm | *.html | *.htm) head -c 100 -- "$file" | grep -q '<?xml' || xml=no ;;
esac

lines=$(mktemp)
trap 'rm -f "$lines"' EXIT
export SP_CHARSET_FIXED=YES SP_ENCODING="${SP_ENCODING:-XML}"
# Else it stops at the 200th error, within the document.
all='-E0'
if [ $xml = yes ]; then
    onsgmls -bUTF-8 -wxml -wno-valid $all -c"$declaration" -- "$file" > "$lines" || status=$?
else
    onsgmls -bUTF-8 -wno-valid $all -- "$file" > "$lines" || status=$?
fi
# Where it finds an error, it goes on and leaves out the last line, `C`.
[ -s "$lines" ] || fail "onsgmls failed and printed no lines of $file"
[ "${status:-0}" -eq 0 ] || echo "from-sgml.sh: onsgmls found errors in $file; its lines may lack some" >&2

# No line of its is `.` alone, so that ends the body.
printf 'session\nload %s\n' "$name"
cat -- "$lines"
echo .
