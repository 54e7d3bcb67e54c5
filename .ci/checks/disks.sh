#!/usr/bin/env bash
# Devices on disks that take no more, and devices that may only be read. What was told before a fault lasts, and a run with room goes on.
# What this machine or this user can't bring about is left out, and said.
. "$(dirname "$0")/../program.sh"
. bench/inputs.sh

refusal='issuer: device is not an issuer device'
fault='issuer: disk fault'
count=300
held=
leave_disks() {
    [ -z "$held" ] || chattr -i "$held" || true
    [ ! -d "$room/disk" ] || umount "$room/disk" || true
    leave
}
trap leave_disks EXIT

purchases "$count" >"$room/lines"
issue dry <"$room/lines" >"$room/all"
ended 'all lines' 0 ''

# formatted NAME: the device of this name, of 33000 bytes. Each of its halves has room for all records.
formatted() {
    issue format "$1" 33000 0
    ended "formatting $1" 0 ''
}

# refused WHAT NAME BEFORE..: the device of this name doesn't open, and no input is read. What comes before the program's name starts it.
refused() {
    status=0
    { "${@:3}" "$issuer" replay "$2" 2>"$room/said" || status=$?; cat >"$room/left"; } <"$room/lines" >"$room/out"
    ended "$1" 4 "$refusal"
    wrote "$1" /dev/null
    cmp -s "$room/lines" "$room/left" || fail "$1: it read its input"
}

# stopped WHAT NAME BEFORE..: a replay of all lines ends by a disk fault after some of them.
stopped() {
    status=0
    "${@:3}" "$issuer" replay "$2" <"$room/lines" >"$room/out" 2>"$room/said" || status=$?
    ended "$1" 6 "$fault"
    goes_on "$1" "$2"
}

# goes_on WHAT NAME: what was told before the fault is a part of the transcript, and has its records. A copy with room takes the rest.
goes_on() {
    told=$(wc -l <"$room/out")
    [ "$told" -gt 0 ] && [ "$told" -lt "$count" ] || fail "$1: $told lines were told"
    head -n "$told" "$room/all" | cmp -s - "$room/out" || fail "$1: it wrote '$(tail -n 2 "$room/out")'"
    cp "$2" "$room/copy"
    issue replay "$room/copy" </dev/null >"$room/out"
    ended "$1, opened again" 0 ''
    wrote "$1, opened again" /dev/null
    cp "$room/copy" "$room/before"
    head -n "$told" "$room/lines" >"$room/in"
    issue replay "$room/copy" <"$room/in" >"$room/out"
    ended "$1, what was told" 0 ''
    head -n "$told" "$room/all" | cmp -s - "$room/out" || fail "$1: what was told is told otherwise"
    cmp -s "$room/before" "$room/copy" || fail "$1: a line that was told had no record"
    issue replay "$room/copy" <"$room/lines" >"$room/out"
    ended "$1, all lines" 0 ''
    wrote "$1, all lines" "$room/all"
}

# within BLOCKS COMMAND..: runs it where no file may be longer than so many 1024 bytes: a write beyond fails, and one across is cut.
within() {
    (
        trap '' XFSZ
        ulimit -f "$1"
        exec "${@:2}"
    )
}

# small_disk BYTES: an empty disk of its own, which ends with this process. Its files take room only where they are written.
small_disk() {
    umount "$room/disk" 2>/dev/null || mkdir -p "$room/disk"
    mount -t tmpfs -o "size=$1" issuer_check "$room/disk"
}

on_small_disks() {
    local device=$room/disk/device
    small_disk 8k
    formatted "$device"
    stopped 'a full disk' "$device"

    # A file that has all its bytes before it is formatted needs no room.
    small_disk 40k
    head -c 33000 /dev/zero >"$device"
    formatted "$device"
    cat /dev/zero >"$room/disk/rest" 2>/dev/null || true
    issue replay "$device" <"$room/lines" >"$room/out"
    ended 'a device that has its room, on a full disk' 0 ''
    wrote 'a device that has its room, on a full disk' "$room/all"

    mount -o remount,bind,ro "$room/disk"
    refused 'a disk that may only be read' "$device"
}

if [ "${1:-}" = small_disks ]; then
    on_small_disks
    exit
fi

for blocks in 1 2 9; do
    formatted "$room/limited"
    stopped "a limit of $blocks blocks" "$room/limited" within "$blocks"
done

space=(unshare --mount)
[ "$(id -u)" = 0 ] || space=(unshare --map-root-user --mount)
if "${space[@]}" bash -c 'mount -t tmpfs issuer_check /mnt' 2>/dev/null; then
    "${space[@]}" bash "$0" small_disks
else
    echo "$0: left out: a full disk, and one that may only be read, since no disk can be mounted here"
fi

# A file without permissions, for a user who isn't root.
chmod 711 "$room"
cp "$issuer" "$room/issuer"
issuer=$room/issuer
other=()
[ "$(id -u)" != 0 ] || other=(setpriv --reuid=65534 --regid=65534 --clear-groups)
formatted "$room/shut"
if "${other[@]}" "$issuer" dry </dev/null 2>/dev/null; then
    chmod 666 "$room/shut"
    status=0
    "${other[@]}" "$issuer" replay "$room/shut" </dev/null 2>"$room/said" || status=$?
    ended 'a file with permission' 0 ''
    for mode in 444 222 000; do
        chmod "$mode" "$room/shut"
        refused "a file of mode $mode" "$room/shut" "${other[@]}"
    done
else
    echo "$0: left out: files without permissions, since no other user can be had here"
fi

# A file that nobody may change, and one that nobody may change from some line on.
formatted "$room/fixed"
held=$room/fixed
if chattr +i "$held" 2>/dev/null; then
    refused 'a file that nobody may change' "$held"
    chattr -i "$held"
    mkfifo "$room/pipe"
    "$issuer" replay "$held" <"$room/pipe" >"$room/out" 2>"$room/said" &
    child=$!
    exec {pipe}>"$room/pipe"
    head -n 20 "$room/lines" >&"$pipe"
    for _ in {1..200}; do
        [ "$(wc -l <"$room/out")" -lt 20 ] || break
        sleep 0.1
    done
    chattr +i "$held"
    # The program may have ended before it has read them all.
    tail -n +21 "$room/lines" >&"$pipe" || true
    exec {pipe}>&-
    status=0
    wait "$child" || status=$?
    child=
    chattr -i "$held"
    ended 'a file that nobody may change any more' 6 "$fault"
    goes_on 'a file that nobody may change any more' "$held"
    [ "$told" = 20 ] || fail "a file that nobody may change any more: $told lines were told"
else
    echo "$0: left out: a file that nobody may change, since none can be had here"
fi
held=
