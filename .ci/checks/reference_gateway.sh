#!/usr/bin/env bash
# The reference gateway as a program: its words, what it answers to each kind of request, and how it ends. Then the issuer asks it for
# two hundred purchases at once, in twelve runs. Each is killed by signal 9 amid the answers, and in nine of them the gateway is killed too,
# or either side held up. Some purchases are cleared or reversed. In the end, when no call is open and each notice is acknowledged, both
# sides' totals are the same.

# Devices are written here: in memory their syncs take no time.
[ ! -w /dev/shm ] || export TMPDIR=/dev/shm
. "$(dirname "$0")/../serving.sh"

[ -x "$reference" ] || make gateway >&2

# What a user may have of the gateway in all, in cents: more than all purchases come to.
total=100000000
flight=200
rounds=12
recorder=

# leave: a recorder ends its gateway too.
leave() {
    local number
    [ -z "$recorder" ] || { kill "$recorder" && wait "$recorder"; } 2>/dev/null || true
    for number in $server $gateway; do
        { kill -9 "$number" && wait "$number"; } 2>/dev/null || true
    done
    rm -rf "$room"
}

# refer WORDS..: the gateway ends by itself.
refer() {
    status=0
    "$reference" "$@" </dev/null 2>"$room/said" || status=$?
}

# attends [TURNS [MAX [TOTAL]]]: the gateway answers on $gateway_port.
attends() {
    "$reference" "$gateway_port" "${1:-1000000}" "${2:-6000}" "${3:-10000}" </dev/null 2>"$room/said" &
    gateway=$!
    listening "$gateway_port" 'a gateway'
}

# let_go WHAT STATUS LINE: the gateway ends by itself, so.
let_go() {
    status=0
    wait "$gateway" || status=$?
    gateway=
    ended "$1" "$2" "$3"
}

# A token, by its call's number.
token() {
    printf '00000000-0000-8000-8000-%012d' "$1"
}

# ask CALL AMOUNT [MEMBER]: a request's text.
ask() {
    printf '{"amount":"%s","card":"c1","currency":"USD","event":"a%d","mcc":"5411","method":"pgfs.authorization","mid":"m1",' "$2" "$1"
    printf '"number":%d,%s"token":"%s","txn":"a%d","user":"u1"}' "$1" "${3:-}" "$(token "$1")" "$1"
}

# void CALL NOTICE: a notice's text.
void() {
    printf '{"amount":"60.00","currency":"USD","gateway":"0.00","method":"x.void","notice":%d,"token":"%s","txn":"a1","user":"u1"}' \
        "$2" "$(token "$1")"
}

# raw PIECE..: sends these pieces to the gateway on a connection of their own, with a pause between them, and writes the response.
raw() {
    local peer piece
    exec {peer}<>"/dev/tcp/127.0.0.1/$gateway_port"
    for piece in "$@"; do
        printf '%b' "$piece" >&"$peer"
        sleep 0.02
    done
    timeout 20 cat <&"$peer"
    exec {peer}>&-
}

# told WHAT RESPONSE PIECE..: a request of these pieces is answered so, its status and then its body.
told() {
    local answer
    answer=$(raw "${@:3}" | sed -n 's/^HTTP\/1.1 \([0-9]*\) .*/\1/p; $p' | paste -d ' ' - -)
    [ "$answer" = "$2" ] || fail "$1: told '$answer', not '$2'"
}

# heard RESPONSE BODY: a request with this body is answered so.
heard() {
    told "$2" "$1" "POST /jit HTTP/1.1\\r\\nHost: localhost\\r\\nContent-Length: ${#2}\\r\\n\\r\\n$2"
}

funded() {
    printf '200 {"amount":"%s","token":"%s"}' "$2" "$(token "$1")"
}

words() {
    local list
    for list in '' '8000' '8000 1 1' '0 1 1 1' '65536 1 1 1' '8000 0 1 1' '8000 1000001 1 1' '8000 1 0 1' '8000 1 1 0' \
        '8000 1 1 1000000000001' '8000 1 01 1' '8000 1 1 1 1' '8000 1 1 -1'; do
        # shellcheck disable=SC2086
        refer $list
        ended "the words '$list'" 2 ''
    done
}

# rules: what is funded, refused and undone.
rules() {
    local refused='402 {"reply":"refused"}' acked='200 {"reply":"acked"}' text
    heard "$(funded 1 60.00)" "$(ask 1 60.00)"
    heard "$(funded 1 60.00)" "$(ask 1 60.00)"
    heard "$refused" "$(ask 2 60.00)"
    heard "$acked" "$(void 1 1)"
    heard "$refused" "$(ask 2 60.00)"
    heard "$(funded 3 60.00)" "$(ask 3 60.00)"
    heard "$(funded 4 40.00)" "$(ask 4 60.00 '"partial":true,')"
    heard "$acked" "$(void 5 2)"
    heard "$refused" "$(ask 5 1.00)"
    for text in '{}' 'nothing' '{"method":"x.void"}'; do
        heard '400 {"fault":"TEXT","reply":"form"}' "$text"
    done
}

# requests: what a request may be, and what it is told.
requests() {
    local text peer
    text=$(ask 1 60.00)
    told 'three pieces' "$(funded 1 60.00)" 'POST /jit HTTP/1.1\r\nContent-Le' "ngth: ${#text}\\r\\n\\r\\n${text:0:20}" "${text:20}"
    told 'the path of events' '404 {"fault":"PATH","reply":"http"}' 'POST /events HTTP/1.1\r\nContent-Length: 0\r\n\r\n'
    told 'another method' '400 {"fault":"METHOD","reply":"http"}' 'GET /jit HTTP/1.1\r\nHost: localhost\r\n\r\n'
    told 'no head' '400 {"fault":"HEAD","reply":"http"}' ' POST /jit HTTP/1.1\r\n\r\n'
    told 'no length' '400 {"fault":"NO_LENGTH","reply":"http"}' 'POST /jit HTTP/1.1\r\nHost: localhost\r\n\r\n'
    # A client that ends before its request is whole costs nothing else.
    exec {peer}<>"/dev/tcp/127.0.0.1/$gateway_port"
    printf 'POST /jit HTT' >&"$peer"
    exec {peer}>&-
    heard "$(funded 1 60.00)" "$text"
}

# ends: how a run ends.
ends() {
    local peer
    refer "$gateway_port" 1000 1 1
    ended 'a port on which another program listens' 3 ''
    stopped
    attends 200
    exec {peer}<>"/dev/tcp/127.0.0.1/$gateway_port"
    printf 'POST ' >&"$peer"
    let_go 'two hundred waits' 0 ''
    [ -z "$(timeout 5 cat <&"$peer")" ] || fail 'a client at the end: it was told something'
    exec {peer}>&-
}

# moment LEAST MOST: so many milliseconds, in seconds.
moment() {
    printf '0.%03d' $((RANDOM % ($2 - $1) + $1))
}

# waits: what waits for the gateway on the device, without touching it.
waits() {
    cp "$device" "$room/copy"
    issue replay "$room/copy" </dev/null >"$room/waits"
    ended 'what waits' 0 ''
}

# records: the gateway behind a recorder, which listens on $gateway_port.
records() {
    .ci/recorder.py "$gateway_port" "$reference" "$inner_port" 1000000 "$total" "$total" >"$room/recorder" &
    recorder=$!
    listening "$gateway_port" 'a recorder'
}

# begins SIGNAL: the recorder gets this signal.
begins() {
    done_before=$(wc -l <"$room/recorder")
    kill "-$1" "$recorder"
}

# has WHAT: the recorder has done what the signal says. After a kill the gateway hears all bodies again.
has() {
    local until=$((SECONDS + 300))
    until [ "$(wc -l <"$room/recorder")" -gt "$done_before" ]; do
        kill -0 "$recorder" && [ "$SECONDS" -lt "$until" ] || fail "the recorder: not $1"
        sleep 0.02
    done
    [ "$(tail -n 1 "$room/recorder")" = "$1" ] || fail "the recorder: not $1"
}

# under_load KIND CARD: two hundred purchases by this card come at once, and amid the answers what serves is killed. Before that, by its
# kind, the gateway is killed or held up, or what serves is held up.
under_load() {
    local load until=$((SECONDS + 60))
    serve
    listening "$port" 'what serves'
    : >"$room/now"
    "$room/load" "$port" "$next" "$flight" "$flight" "$2" m1 50 >"$room/now" 2>"$room/figures" &
    load=$!
    until [ -s "$room/now" ]; do
        [ "$SECONDS" -lt "$until" ] || fail "a run answers nothing: $(cat "$room/said" "$room/figures")"
        sleep 0.01
    done
    case $1 in
    1) begins USR1 ;;
    2) begins USR2 ;;
    3) kill -STOP "$server" && sleep 0.3 && kill -CONT "$server" ;;
    esac
    sleep "$(moment 20 150)"
    killed
    wait "$load" || true
    case $1 in
    1) has killed ;;
    2) has 'held up' ;;
    esac
    waits
    ! grep -q '"method":"pgfs.authorization"' "$room/waits" || open=$((open + 1))
    next=$((next + flight))
}

# later: some purchases are reversed, and some cleared, each by a part.
later() {
    awk -v most="$next" 'BEGIN {
        for (i = 0; i < most; i += 7) {
            type = i % 2 ? "reversal" : "clearing"
            printf "{\"type\":\"%s\",\"token\":\"l%d\",\"txn\":\"e%d\",\"currency\":\"USD\",\"amount\":\"0.25\"%s}\n",
                type, i, i, type == "clearing" ? ",\"final\":true" : ""
        }
    }' >"$room/in"
    issue replay "$device" <"$room/in" >"$room/out"
    ended 'what comes later' 0 ''
    grep -q '"reply":"done"' "$room/out" || fail 'what comes later: nothing was done'
}

# meet: both sides' totals in USD are the same. The gateway tells what a user may still have.
meet() {
    local rest ours theirs text
    text=$(ask 1 9999999.99 '"partial":true,')
    text=${text//$(token 1)/ffffffff-ffff-8fff-8fff-ffffffffffff}
    rest=$(raw "POST /jit HTTP/1.1\\r\\nContent-Length: ${#text}\\r\\n\\r\\n$text" | sed -n 's/^{"amount":"\([0-9.]*\)".*/\1/p')
    [ -n "$rest" ] || fail 'the gateway: it does not tell what a user may still have'
    theirs=$((total - 10#${rest/./}))
    issue balances "$device" >"$room/balances"
    ended 'balances' 0 ''
    ours=$(sed -n 's/^{"account":"gateway","balance":"-\([0-9.]*\)","currency":"USD"}$/\1/p' "$room/balances")
    [ -n "$ours" ] || fail "the issuer: nothing is owed to the gateway: $(cat "$room/balances")"
    [ "$theirs" = $((10#${ours/./})) ] || fail "the totals: $theirs cents at the gateway, and $ours at the issuer"
    echo "$0: the totals meet: $ours USD, after $next purchases"
}

words
attends
rules
requests
ends

if ! command -v python3 >/dev/null || ! built load; then
    echo "$0: no python3 or no gcc here: no purchases are asked for"
    exit 0
fi
inner_port=$(some_port)
while [ "$inner_port" = "$port" ] || [ "$inner_port" = "$gateway_port" ]; do
    inner_port=$(some_port)
done
formatted 8000000
cat >"$room/settings" <<'END'
{"type":"product","token":"p1","product":"g","currency":"USD","funding":"GATEWAY","timeout_ms":60000}
{"type":"product","token":"p2","product":"h","currency":"USD","funding":"GATEWAY","timeout_ms":200}
{"type":"user","token":"t1","user":"u1"}
{"type":"card","token":"t2","card":"c1","user":"u1","product":"g"}
{"type":"card","token":"t3","card":"c2","user":"u1","product":"h"}
END
issue replay "$device" <"$room/settings" >/dev/null
ended 'the settings' 0 ''
records
next=0
open=0
for ((round = 0; round < rounds; round++)); do
    # Of each kind one run is by the card whose calls have little time.
    under_load $((round % 4)) "c$((1 + round % 3 / 2))"
    [ "$round" != $((rounds / 2)) ] || later
done
[ "$open" -ge $((rounds / 2)) ] || fail "only $open of $rounds runs left a call open"

# Further runs, each for longer, until all calls are closed and all notices acknowledged. Before them the gateway is killed once more.
begins USR1
has killed
for run in {1..30}; do
    serve
    listening "$port" 'what serves'
    sleep "$((run / 2)).$((run % 2 * 5))"
    killed
    waits
    [ -s "$room/waits" ] || break
done
[ ! -s "$room/waits" ] || fail "in the end this waits: $(head -n 3 "$room/waits")"
meet
