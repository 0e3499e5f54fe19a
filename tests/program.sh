#!/usr/bin/env bash
# Runs startup on files of many kinds and holds what it does against sha1sum and against a model of the stores in Python.
set -euo pipefail
cd "$(dirname "$0")/.."
startup=$PWD/crates/startup/out/startup
stores=$PWD/tests/stores.py
rules=$PWD/docs/MODULE.md
folder=$(mktemp -d)
trap 'rm -rf "$folder"' EXIT
cd "$folder"

fail() { echo "tests/program.sh: $*" >&2; exit 1; }

# Runs startup with the words after the wanted status; leaves out and err.
run() {
    local wanted=$1 status=0
    shift
    "$startup" "$@" >out 2>err || status=$?
    [ "$status" -eq "$wanted" ] || fail "startup $*: status $status, not $wanted"
}

# The last line that startup writes for these files, worked out by Python.
register() {
    python3 - "$@" <<'PY'
import hashlib, sys
register = bytes(20)
for name in sys.argv[1:]:
    with open(name, "rb") as part:
        register = hashlib.sha1(register + hashlib.file_digest(part, "sha1").digest()).digest()
print("register", register.hex())
PY
}

same_as_sha1sum() {
    run 0 measure "$@"
    { sha1sum -- "$@"; register "$@"; } | cmp - out || fail "startup measure $*: not as sha1sum has it"
    [ ! -s err ] || fail "startup measure $*: wrote to standard error"
}

# Lengths around a block, around the piece that is read at a time, and larger.
for n in 0 1 55 56 63 64 65 16383 16384 16385 1000003; do
    head -c "$n" /dev/urandom >"length-$n"
done
same_as_sha1sum length-*
same_as_sha1sum /dev/null

# A file that is larger than the memory that the program may have.
truncate -s 512M large
(ulimit -v 65536 && run 0 measure large)
{ sha1sum large; register large; } | cmp - out || fail "a large file is not as sha1sum has it"
rm large

# Names that sha1sum escapes, and names that it leaves.
for name in 'a b' 'a\b' $'a\nb' $'a\rb' $'a\tb' 'é' '-' '--help'; do
    printf 'part %s' "$name" >"./$name"
    same_as_sha1sum "./$name"
done
same_as_sha1sum './a b' './a\b' $'./a\nb' './é'

# A file that cannot be read is named, the others are measured, the status is 1.
run 1 measure length-1 missing . length-64
{ sha1sum length-1 length-64; register length-1 length-64; } | cmp - out || fail "files beside a missing one are not measured"
grep -q '^startup: missing: No such file' err || fail "a missing file is not named"
grep -q '^startup: \.: Is a directory' err || fail "a folder is not named"

# The list of parts.
run 1
grep -q '^startup: parts.txt: No such file' err || fail "a missing list is not named"
printf 'length-1\n\nlength-64\n' >parts.txt
run 0
{ sha1sum length-1 length-64; register length-1 length-64; } | cmp - out || fail "the list of parts is not measured"
run 0 measure
{ sha1sum length-1 length-64; register length-1 length-64; } | cmp - out || fail "measure does not take the list of parts"

# Images of both kinds, whole ones and faulty ones.
"$stores" random .
whole=0
for image in image-*; do
    "$stores" show "$image" >shown
    if [ -s shown ]; then
        run 0 show "$image"
        cmp shown out || fail "startup show $image is not as the model has it"
        whole=$((whole + 1))
    else
        run 1 show "$image"
        grep -q "^startup: $image: .*neither a cell image nor a strip image" err || fail "$image passes for an image"
    fi
done
[ "$whole" -ge 12 ] || fail "only $whole images are whole"
run 1 show missing
grep -q '^startup: missing: No such file' err || fail "a missing image is not named"
run 1 show
run 1 show image-0 image-1

# The example image of the rules shows what they say.
block() { awk -v start="$1" 'index($0, start) == 1 { on = 1 } on && /^    / { print substr($0, 5); seen = 1; next } seen { exit }' "$rules"; }
block '#### An example' | python3 -c 'import sys; sys.stdout.buffer.write(bytes.fromhex(sys.stdin.read()))' >example
run 0 show example
block '`startup show IMAGE`' | cmp - out || fail "the example of docs/MODULE.md is not what startup show prints"

# New images.
new() {
    "$stores" new wanted "$@"
    rm -f made
    run 0 new made "$@"
    cmp wanted made || fail "startup new made $*: not as the model has it"
}
new 0 0
new 0 9 --strip
new 6 1
new 1 65535
new 6 0 --strip
new 5 3 --strip
new 300 256
new 65535 2
new 65535 1 --strip
run 0 show made
"$stores" show made | cmp - out || fail "startup show of 65535 cells is not as the model has it"

# A file that is there is left alone, and a faulty call makes none.
cp made before
run 1 new made 1 1
cmp made before || fail "startup new wrote over a file"
grep -q '^startup: made: File exists' err || fail "a file that is there is not named"
for words in '' 'other' 'other 1' 'other 1 2 3' 'other 1 2 --strips' 'other 65536 1' 'other 1 65536' 'other -1 1' 'other x 1'; do
    # shellcheck disable=SC2086
    run 1 new $words
    [ -s err ] || fail "startup new $words: nothing says what is wrong"
    [ ! -e other ] || fail "startup new $words made a file"
done
run 1 new missing/other 1 1
(trap '' XFSZ && ulimit -f 1 && run 1 new other 1000 1)
[ ! -e other ] || fail "an image that cannot be written whole is left behind"

# Help, and a word that is no command.
run 0 --help
grep -q '^usage: startup' out || fail "no usage"
run 1 masure
grep -q 'masure' err || fail "a word that is no command is not named"

echo "tests/program.sh: startup does as sha1sum and the model of the stores do"
