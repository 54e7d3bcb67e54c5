#!/usr/bin/env bash
# What docs/RECIPES.md has on devices: its commands as they stand there, what they export, and the sizes of records that it names.
# The bytes of a device in examples/tools/README.md.

# Devices are written here: in memory their syncs take no time.
[ ! -w /dev/shm ] || export TMPDIR=/dev/shm
. "$(dirname "$0")/../serving.sh"

if ! command -v python3 >/dev/null; then
    echo "$0: no python3 here: the recipes are left out"
    exit 0
fi
export PYTHONDONTWRITEBYTECODE=1
reader=examples/tools/device_lines.py
tables=examples/tools/tables.py

# The page's commands, in a folder in which the program is built.
mkdir -p "$room/page/build"
cp "$issuer" "$room/page/build/issuer"
ln -s "$PWD/examples" "$room/page/examples"
awk '
    /^## / { is_ours = /^## (What a device has|Why was this|One user|Who holds|Export to|How full)/ }
    /^```/ { inside = !inside; next }
    inside && is_ours
' docs/RECIPES.md >"$room/page/commands"
(cd "$room/page" && bash -eu -o pipefail commands) >"$room/out" 2>"$room/said" || fail "docs/RECIPES.md: it said '$(cat "$room/said")'"
cat >"$room/told" <<'END'
{"event":"a3","reason":"CONTROL:v1","reply":"declined"}
{"type":"control","at":0,"token":"t7","control":"v1","currency":"USD","window":"DAY","amount_limit":"1.00","active":true}
reason,declines
CONTROL:v1,1
record,type,event,txn,amount,reply,reason
2,user,t2,,,done,
4,card,t4,,,done,
6,load,t6,,50.00,done,
9,authorization,a2,a2,1.00,approved,
10,authorization,a3,a3,0.01,declined,CONTROL:v1
{"account":"user","balance":"50.00","currency":"USD","held":"1.00","user":"u1"}
{"account":"user","balance":"50.00","currency":"USD","held":"1.00","user":"u2"}
{"event":"live-8","reply":"done"}
{"event":"live-9","reply":"done"}
records 10
size_bytes 1048576
free_bytes 523969
half_bytes 524279
image_records 0
image_bytes 0
used_ratio 0.000591
# TYPE issuer_device_records gauge
issuer_device_records 10
# TYPE issuer_device_size_bytes gauge
issuer_device_size_bytes 1048576
# TYPE issuer_device_free_bytes gauge
issuer_device_free_bytes 523969
# TYPE issuer_device_half_bytes gauge
issuer_device_half_bytes 524279
# TYPE issuer_device_image_records gauge
issuer_device_image_records 0
# TYPE issuer_device_image_bytes gauge
issuer_device_image_bytes 0
# TYPE issuer_device_used_ratio gauge
issuer_device_used_ratio 0.000591
END
wrote 'docs/RECIPES.md' "$room/told"

# What was exported: the same rows in both.
cat >"$room/told" <<'END'
record,at,type,event,reply,reason,user,card,txn,currency,amount,minor,mcc,mid,call,outcome,notice,line
1,0,user,t1,done,,u1,,,,,,,,,,,"{""type"":""user"",""at"":0,""token"":""t1"",""user"":""u1""}"
END
head -n 2 "$room/page/example.csv" >"$room/out"
wrote 'example.csv' "$room/told"
python3 - "$room/page" <<'END' || fail 'example.sqlite has other rows than example.csv'
import csv
import sqlite3
import sys

rows = sqlite3.connect(f"{sys.argv[1]}/example.sqlite").execute("select * from records").fetchall()
with open(f"{sys.argv[1]}/example.csv") as file:
    lines = list(csv.reader(file))[1:]
sys.exit([["" if value is None else str(value) for value in row] for row in rows] != lines)
END

# A device that is removed while it is served: before that the page's alarm says nothing, and after it the page's commands save it.
awk '/^## / { is_ours = /^## A device that was removed/ } /^```/ { inside = !inside; next } inside && is_ours' docs/RECIPES.md >"$room/page/removed"
alarm() {
    (cd "$room/page" && issuer=$server bash <(head -n 2 removed))
}
device=$room/page/example.device
serve
disown "$server"
listening "$port" 'what serves'
[ -z "$(alarm)" ] || fail "an alarm of a device that is there: $(alarm)"
rm "$device"
line='{"type":"user","token":"late","user":"late"}'
exec {peer}<>"/dev/tcp/127.0.0.1/$port"
printf 'POST /events HTTP/1.1\r\nContent-Length: %d\r\n\r\n%s' "${#line}" "$line" >&"$peer"
timeout 20 cat <&"$peer" >"$room/out"
exec {peer}>&-
grep -q '{"event":"late","reply":"done"}' "$room/out" || fail "a device that was removed: told '$(cat "$room/out")'"
[ "$(alarm)" = 'example.device is not the file that is served' ] || fail "a device that was removed: the alarm says '$(alarm)'"
(cd "$room/page" && issuer=$server bash -eu <(tail -n +3 removed)) >"$room/out" 2>"$room/said" || fail "docs/RECIPES.md: it said '$(cat "$room/said")'"
server=
python3 "$reader" "$room/page/saved.device" | grep -q '"token":"late"' || fail 'a device that was saved: it has not what came last'

# A gateway's answer and acknowledgement, a clearing and a refund are about their purchase and its user too.
cat >"$room/in" examples/scripts/a_day_of_a_gateway_product.jsonl - <<<'{"type":"ack","notice":2}'
issue dry <"$room/in" >"$room/replies"
ended 'a day of a gateway product' 0 ''
python3 "$tables" "$room/in" "$room/replies" \
    "select type, event, txn, minor, outcome, notice from records where user = 'u1' and txn = 'a2'" >"$room/out"
cat >"$room/told" <<'END'
type,event,txn,minor,outcome,notice
authorization,a2,a2,100,,
answer,a2,a2,100,FUNDED,
increment,i1,a2,4900,,
answer,i1,a2,4900,FUNDED,
clearing,k2,a2,3820,,
ack,,a2,3820,,2
END
wrote 'the history of a purchase' "$room/told"

# By the commands of the page: four purchases have ended, and two haven't, of which one was approved in part.
cat >"$room/page/example.jsonl" examples/scripts/a_day_of_a_gateway_product.jsonl - <<'END'
{"type":"authorization","token":"a5","card":"c1","currency":"USD","amount":"1.00","mcc":"5411","mid":"m1"}
{"type":"answer","call":6,"outcome":"FUNDED"}
{"type":"authorization","token":"a6","card":"c1","currency":"USD","amount":"1.00","mcc":"5411","mid":"m1","partial":true}
{"type":"answer","call":7,"outcome":"PARTIAL","currency":"USD","amount":"0.40"}
END
issue dry <"$room/page/example.jsonl" >"$room/page/example.replies"
ended 'two live purchases' 0 ''
issue format "$room/page/example.device" 1048576 0
issue replay "$room/page/example.device" <"$room/page/example.jsonl" >/dev/null
ended 'two live purchases, replayed' 0 ''
awk '/^## / { is_ours = /^## Who holds/ } /^```/ { inside = !inside; next } inside && is_ours' docs/RECIPES.md >"$room/page/commands"
(cd "$room/page" && bash -eu -o pipefail commands) | sed 's/.*"event":"\([^"]*\)".*"reply":"\([a-z]*\)".*/\1 \2/' >"$room/out"
cat >"$room/told" <<'END'
{"account":"user","balance":"1.40","currency":"USD","held":"1.40","user":"u1"}
live-6 declined
live-9 declined
live-14 declined
live-18 declined
live-21 done
live-23 done
END
wrote 'the purchases that are live' "$room/told"
python3 "$tables" "$room/page/example.jsonl" "$room/page/example.replies" \
    "select sum(minor) as held from records where type = 'authorization' and record in (21, 23)" >"$room/out"
printf 'held\n140\n' >"$room/told"
wrote 'what the live purchases hold' "$room/told"

# used FILE: how many bytes of a new device the records of these lines take.
used() {
    rm -f "$room/device"
    issue format "$room/device" 100000 7
    ended 'a new device' 0 ''
    issue replay "$room/device" <"$1" >"$room/out"
    ended 'a purchase' 0 ''
    python3 "$reader" "$room/device" --stats | awk '/^free/ { free = $2 } /^half/ { print $2 - free - 5 }'
}

# purchase LENGTH: the lines of a purchase that a gateway funds and that is then cleared, all of whose names have this length.
purchase() {
    name() { printf "%-$1s" "$2" | tr ' ' '-'; }
    local u p c t k m
    u=$(name "$1" u) p=$(name "$1" p) c=$(name "$1" c) t=$(name "$1" t) k=$(name "$1" k) m=$(name "$1" m)
    cat <<END
{"type":"user","token":"t1","user":"$u"}
{"type":"product","token":"t2","product":"$p","currency":"USD","funding":"GATEWAY"}
{"type":"card","token":"t3","card":"$c","user":"$u","product":"$p"}
{"type":"authorization","token":"$t","card":"$c","currency":"USD","amount":"1.00","mcc":"5411","mid":"$m"}
{"type":"answer","call":1,"outcome":"FUNDED"}
{"type":"clearing","token":"$k","txn":"$t","currency":"USD","amount":"1.00","final":true}
{"type":"ack","notice":1}
END
}

# millions BYTES: how many million times BYTES a half of a device of a GiB has, cut after the first decimal.
millions() {
    awk -v bytes="$1" 'BEGIN { printf "%.1f", int(2 ^ 29 / bytes / 100000) / 10 }'
}

for length in 8 36; do
    purchase "$length" >"$room/lines"
    for count in 3 4 5 6 7; do
        head -n "$count" "$room/lines" >"$room/some"
        sums[count]=$(used "$room/some")
    done
    alone=$((sums[4] - sums[3])) answer=$((sums[5] - sums[4])) clearing=$((sums[6] - sums[5])) ack=$((sums[7] - sums[6]))
    cleared=$((alone + clearing))
    funded=$((cleared + answer + ack))
    row="| $alone bytes | $cleared | $funded | $(millions "$cleared") and $(millions "$funded") million |"
    grep -qF "$row" docs/RECIPES.md || fail "docs/RECIPES.md: names of $length characters have the row '$row'"
done

# The bytes of the first two records, as the page of the tools has them.
issue format "$room/bytes" 1000 7
issue replay "$room/bytes" <"$first_in" >"$room/out"
hex=$(sed -n '/^```$/,/^```$/p' examples/tools/README.md | tr -dc '0-9a-f')
[ "$hex" = "$(od -An -v -tx1 -j 21 -N "$((${#hex} / 2))" "$room/bytes" | tr -d ' \n')" ] || fail 'examples/tools/README.md has other bytes'
