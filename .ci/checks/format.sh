#!/usr/bin/env bash
# Formatting a real file: what it leaves, and what it refuses.
. "$(dirname "$0")/../program.sh"

refusal='issuer: device is not an issuer device'
usage='issuer: usage: dry, format DEVICE SIZE INSTANCE, replay DEVICE, balances DEVICE, serve DEVICE PORT GATEWAYPORT TURNS, drill N'
device=$room/device

# run_format WORDS..: runs the program, which reads no input.
run_format() {
    { issue format "$@" && cat >"$room/left"; } <"$first_in" >"$room/out"
    cmp -s "$first_in" "$room/left" || fail "format $*: it read its input"
    wrote "format $*" /dev/null
}

# holds FILE SIZE INSTANCE: the file has this size and begins with the header of a device in halves with this instance, in hex. After it come
# the selector of the first half, and there an image of no bytes and a closed gate.
holds() {
    local size front
    size=$(wc -c <"$1")
    front=$(head -c 22 "$1" | od -An -v -tx1 | tr -d ' \n')
    [ "$size" = "$2" ] || fail "$1 has $size bytes, not $2"
    [ "$front" = "01495353310200000000${3}000000000000" ] || fail "$1 begins with $front, not with the instance $3"
}

# A file that isn't there is made, of zeros behind its end gate.
run_format "$device" 100 7
ended 'a file that is not there' 0 ''
holds "$device" 100 000000000007
[ "$(tail -c 78 "$device" | tr -d '\0' | wc -c)" = 0 ] || fail 'a new file: it is not zero behind its end gate'

# One that has the size is formatted, and what stands behind its end gate is left.
printf 'x%.0s' {1..100} >"$device"
run_format "$device" 100 281474976710655
ended 'a file that has the size' 0 ''
holds "$device" 100 ffffffffffff
[ "$(tail -c 78 "$device" | tr -d x | wc -c)" = 0 ] || fail 'a file that has the size: it is not left behind its end gate'
issue replay "$device" </dev/null >"$room/out"
ended 'a device of the greatest instance' 0 ''

# One of no bytes, as a killed format leaves it, is made whole.
: >"$device"
run_format "$device" 100 7
ended 'a file of 0 bytes' 0 ''
holds "$device" 100 000000000007

# One that has another size is left as it is.
for size in 1 17 99 101; do
    head -c "$size" /dev/zero | tr '\0' x >"$device"
    cp "$device" "$room/before"
    run_format "$device" 100 7
    ended "a file of $size bytes" 4 "$refusal"
    cmp -s "$room/before" "$device" || fail "a file of $size bytes: it was written"
done

# The smallest device, by a name in the folder that the program runs in.
issuer=$PWD/$issuer
(
    cd "$room"
    status=0
    "$issuer" format small 27 0 || status=$?
    [ "$status" = 0 ] || fail "a name without a folder: status $status, not 0"
    "$issuer" format small- 27 0 || status=$?
    [ "$status" = 0 ] || fail "a name that ends in a minus sign: status $status, not 0"
)
holds "$room/small" 27 000000000000

# Where no file can be made or opened, the device has no bytes.
mkdir "$room/folder" "$room/shut"
chmod a-w "$room/shut"
for name in "$room/folder" "$room/none/device" "$device/inner" /proc/issuer_device /dev/full; do
    run_format "$name" 100 7
    ended "the device $name" 4 "$refusal"
done
if [ "$(id -u)" != 0 ]; then
    run_format "$room/shut/device" 100 7
    ended 'a folder that takes no file' 4 "$refusal"
fi

# The greatest numbers and the longest name are taken: what ends such a run is the device's size, or that no file can have the name.
printf x >"$room/one"
run_format "$room/one" 4294967296 281474976710655
ended 'the greatest size and instance' 4 "$refusal"
longest=$(printf '\303\251%.0s' {1..2048})
run_format "$longest" 27 0
ended 'a name of 4096 bytes' 4 "$refusal"

# unformatted WORDS..: the words are no command, and no file is made.
unformatted() {
    run_format "$@"
    ended "the words 'format $*'" 2 "$usage"
    [ ! -e "$room/unmade" ] || fail "the words 'format $*': a file was made"
}

unformatted
unformatted "$room/unmade"
unformatted "$room/unmade" 100
for size in 26 17 0 4294967297 18446744073709551643 027 +27 '' '2 7' 0x1b 27. $'\331\2427'; do
    unformatted "$room/unmade" "$size" 0
done
for instance in 281474976710656 18446744073709551616 00 -0 -7 ''; do
    unformatted "$room/unmade" 27 "$instance"
done
unformatted "$room/unmade" 100 7 7
unformatted '' 100 7
unformatted - 100 7
unformatted -unmade 100 7
unformatted "${longest}d" 100 7
