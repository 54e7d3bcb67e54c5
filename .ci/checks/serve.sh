#!/usr/bin/env bash
# Serving real clients: the lines of docs/SERVING.md as they stand there, requests whole, in pieces and with faults, each kind of gateway,
# what is asked again after a kill, and how a run ends. Clients are curl, where there is one, and bash; the gateway is bench/gateway.c,
# where there is gcc, and on the page the reference gateway.
. "$(dirname "$0")/../serving.sh"

[ -x "$reference" ] || make gateway >&2

disk='issuer: device is not an issuer device'
has_curl=$(command -v curl || true)
[ -n "$has_curl" ] || echo "$0: no curl here: the lines of docs/SERVING.md are left out, and bash is every client"

# raw PIECE..: sends these pieces on a connection of their own, with a pause between them, and writes the whole response.
raw() {
    local peer piece
    exec {peer}<>"/dev/tcp/127.0.0.1/$port"
    for piece in "$@"; do
        printf '%b' "$piece" >&"$peer"
        sleep 0.05
    done
    timeout 20 cat <&"$peer"
    exec {peer}>&-
}

# request PATH BODY: a request, with the ends of its lines spelled for raw.
request() {
    printf 'POST %s HTTP/1.1\\r\\nHost: localhost\\r\\nContent-Length: %d\\r\\n\\r\\n%s' "$1" "${#2}" "$2"
}

# post LINE: what a client is answered, its status and then its body.
post() {
    if [ -n "$has_curl" ]; then
        curl -sS -m 20 -w '%{http_code}' -o "$room/body.$BASHPID" "http://127.0.0.1:$port/events" -d "$1" && printf ' ' &&
            cat "$room/body.$BASHPID"
    else
        raw "$(request /events "$1")" | sed -n 's/^HTTP\/1.1 \([0-9]*\) .*/\1/p; $p' | paste -d ' ' - -
    fi
}

# told LINE RESPONSE: a client that sends the line is answered so.
told() {
    local answer
    answer=$(post "$1") || fail "$1: no response"
    [ "$answer" = "$2" ] || fail "$1: told '$answer', not '$2'"
}

# faulty WHAT RESPONSE PIECE..: a request of these pieces is answered so.
faulty() {
    local what=$1 answer
    answer=$(raw "${@:3}" | sed -n 's/^HTTP\/1.1 \([0-9]*\) .*/\1/p; $p' | paste -d ' ' - -)
    [ "$answer" = "$2" ] || fail "$what: told '$answer', not '$2'"
}

# purchase EVENT CARD MERCHANT: the line of a purchase of 1.00.
purchase() {
    printf '{"type":"authorization","token":"%s","card":"%s","currency":"USD","amount":"1.00","mcc":"5411","mid":"%s"}' "$@"
}

# divisible EVENT CARD MERCHANT: the line of such a purchase of which the gateway may fund a part.
divisible() {
    local line
    line=$(purchase "$@")
    printf '%s,"partial":true}' "${line%\}}"
}

done_reply() {
    printf '200 {"event":"%s","reply":"done"}' "$1"
}

# declined EVENT REASON: the response to an event that is declined.
declined() {
    printf '200 {"event":"%s","reason":"%s","reply":"declined"}' "$@"
}

# settings: a user with a card that its own balance pays, and two cards that a gateway funds: it has half a second for the one, and a
# minute for the other.
settings() {
    told '{"type":"user","token":"t1","user":"u1"}' "$(done_reply t1)"
    told '{"type":"card","token":"t2","card":"c1","user":"u1"}' "$(done_reply t2)"
    told '{"type":"load","token":"t3","user":"u1","currency":"USD","amount":"1.00"}' "$(done_reply t3)"
    local i=4 product
    for product in '"g","timeout_ms":500' '"h","timeout_ms":60000'; do
        told "{\"type\":\"product\",\"token\":\"t$i\",\"product\":$product,\"currency\":\"USD\",\"funding\":\"GATEWAY\"}" \
            "$(done_reply "t$i")"
        i=$((i + 1))
    done
    told '{"type":"card","token":"t6","card":"c2","user":"u1","product":"g"}' "$(done_reply t6)"
    told '{"type":"card","token":"t7","card":"c3","user":"u1","product":"h"}' "$(done_reply t7)"
}

# page: the lines of docs/SERVING.md in a shell of their own, in a folder in which the program is built. The ports are the page's own
# where nobody listens on them.
page() {
    local shell
    mkdir -p "$room/page/build"
    cp "$issuer" "$room/page/build/issuer"
    cp "$reference" "$room/page/build/issuer_gateway"
    awk '/^```$/ { inside = !inside; next } inside' docs/SERVING.md >"$room/page/lines"
    if listens 8080 || listens 8081; then
        sed -i "s/8080/$port/g; s/8081/$gateway_port/g" "$room/page/lines"
    fi
    # The page's own programs end with its shell, whose process group they are in.
    (cd "$room/page" && exec setsid bash lines) >"$room/page/out" 2>"$room/page/said" &
    shell=$!
    wait "$shell" || fail "docs/SERVING.md: $(cat "$room/page/said")"
    kill -9 -- "-$shell" 2>/dev/null || true
    tr -d '\r' <"$room/page/out" | sed -n '/^[{H]/p' >"$room/page/replies"
    diff - "$room/page/replies" >&2 <<'END' || fail "docs/SERVING.md: it was told otherwise, and said '$(cat "$room/page/said")'"
{"event":"t1","reply":"done"}
{"event":"t2","reply":"done"}
{"event":"t3","reply":"done"}
{"event":"a1","reply":"approved"}
{"event":"a1","reply":"approved"}
HTTP/1.1 409 Conflict
{"event":"a1","record":4,"reply":"conflict"}
{"event":"p1","reply":"done"}
{"event":"t4","reply":"done"}
{"event":"a2","reply":"approved"}
END
}

# requests: what a request may be, and what it is told.
requests() {
    local line event
    line=$(purchase a1 c1 m1)
    told "$line" '200 {"event":"a1","reply":"approved"}'
    told "$line" '200 {"event":"a1","reply":"approved"}'
    told "$(purchase a1 c1 m2)" '409 {"event":"a1","record":8,"reply":"conflict"}'
    told "$(purchase a2 c1 m1)" "$(declined a2 INSUFFICIENT_FUNDS)"
    for event in '"time","at":1' '"answer","call":1,"outcome":"FUNDED"' '"ack","notice":1'; do
        told "{\"type\":$event}" '400 {"fault":"FIELD","field":"type","reply":"form"}'
    done
    told '{"type":"user","token":"t1","user":"u1","at":"then"}' "$(done_reply t1)"
    told 'nothing' '400 {"fault":"JSON","reply":"form"}'
    faulty 'three pieces' '200 {"event":"a1","reply":"approved"}' \
        'POST /events HTTP/1.1\r\nContent-Le' "ngth: ${#line}\\r\\n\\r\\n${line:0:20}" "${line:20}"
    faulty 'HTTP/1.0 and bytes behind the body' '200 {"event":"a1","reply":"approved"}' \
        "POST /events HTTP/1.0\\r\\nContent-Length: ${#line}\\r\\n\\r\\n${line}more"
    faulty 'a coding' '400 {"fault":"CODING","reply":"http"}' 'POST /events HTTP/1.1\r\nTransfer-Encoding: chunked\r\n\r\n'
    faulty 'a long body' '400 {"fault":"BODY_LONG","reply":"http"}' 'POST /events HTTP/1.1\r\nContent-Length: 16385\r\n\r\n'
    faulty 'no length' '400 {"fault":"NO_LENGTH","reply":"http"}' 'POST /events HTTP/1.1\r\nHost: localhost\r\n\r\n'
    faulty 'another method' '400 {"fault":"METHOD","reply":"http"}' 'GET /events HTTP/1.1\r\nHost: localhost\r\n\r\n'
    faulty 'another path' '404 {"fault":"PATH","reply":"http"}' "$(request /x "$line")"
    faulty 'no head' '400 {"fault":"HEAD","reply":"http"}' ' POST /events HTTP/1.1\r\n\r\n'
    # Clients that say nothing hold nobody up.
    local silent=()
    for _ in {1..30}; do
        exec {peer}<>"/dev/tcp/127.0.0.1/$port"
        silent+=("$peer")
    done
    told "$line" '200 {"event":"a1","reply":"approved"}'
    for peer in "${silent[@]}"; do
        exec {peer}>&-
    done
    # Clients that end before their request is whole cost nothing else.
    exec {peer}<>"/dev/tcp/127.0.0.1/$port"
    printf 'POST /events HTT' >&"$peer"
    exec {peer}>&-
    told "$line" '200 {"event":"a1","reply":"approved"}'
}

# crowd: clients that come while the program looks at nobody queue until it does, more than a common listener keeps.
crowd() {
    local peer crowd=() line waker
    if [ "$(cat /proc/sys/net/core/somaxconn)" -lt 200 ]; then
        echo "$0: this system lets fewer than 200 clients queue: that many are left out"
        return
    fi
    line=$(request /events "$(purchase a1 c1 m1)")
    kill -STOP "$server"
    (sleep 5 && kill -CONT "$server") &
    waker=$!
    for _ in {1..200}; do
        exec {peer}<>"/dev/tcp/127.0.0.1/$port"
        printf '%b' "$line" >&"$peer"
        crowd+=("$peer")
    done
    kill "$waker" 2>/dev/null || fail 'a crowd: some clients came only once others were let in'
    wait "$waker" || true
    kill -CONT "$server"
    for peer in "${crowd[@]}"; do
        timeout 20 cat <&"$peer" | grep -q '"reply":"approved"' || fail 'a crowd: a client has no response'
        exec {peer}>&-
    done
}

# gateways: each kind of answer, and none.
gateways() {
    told "$(purchase g1 c2 m1)" '200 {"event":"g1","reply":"approved"}'
    told "$(purchase g2 c2 bytes)" '200 {"event":"g2","reply":"approved"}'
    told "$(purchase g3 c2 refuses)" "$(declined g3 GATEWAY_DECLINED)"
    # A part is funded if the purchase permits one, and then a repeat gets the same reply. Else a smaller amount is no answer.
    told "$(divisible g11 c2 part)" '200 {"amount":"0.40","event":"g11","reply":"partial"}'
    told "$(divisible g11 c2 part)" '200 {"amount":"0.40","event":"g11","reply":"partial"}'
    told "$(divisible g12 c2 m1)" '200 {"event":"g12","reply":"approved"}'
    told "$(purchase g13 c2 part)" "$(declined g13 GATEWAY_APPLICATION)"
    told "$(purchase g4 c2 fails)" "$(declined g4 GATEWAY_APPLICATION)"
    told "$(purchase g5 c2 garbled)" "$(declined g5 GATEWAY_APPLICATION)"
    told "$(purchase g6 c2 early)" "$(declined g6 GATEWAY_CONNECTION)"
    told "$(purchase g7 c2 silent)" "$(declined g7 GATEWAY_TIMEOUT)"
    # Beside a call that isn't answered, others are, and its event comes again and waits.
    post "$(purchase g8 c3 silent)" >"$room/first" &
    local first=$!
    heard 'left .*"event":"g8"'
    told "$(purchase g8 c3 silent)" '200 {"event":"g8","reply":"pending"}'
    told "$(purchase g9 c2 m1)" '200 {"event":"g9","reply":"approved"}'
    told '{"type":"reversal","token":"r8","txn":"g8","currency":"USD","amount":"1.00"}' "$(done_reply r8)"
    wait "$first" || fail 'a client that waits: no response'
    [ "$(cat "$room/first")" = "$(declined g8 REVERSED)" ] || fail "a client that waits: told '$(cat "$room/first")'"
    # The gateway was told of each call that ended without an answer that decides.
    local failed
    for failed in 4 5 6 7 8 13; do
        heard "acked .*\"method\":\"x.void\".*\"txn\":\"g$failed\""
    done
    stopped
    told "$(purchase g10 c2 m1)" "$(declined g10 GATEWAY_CONNECTION)"
    killed
}

# heard PATTERN: the gateway hears this within some seconds.
heard() {
    for _ in {1..500}; do
        ! grep -q "$1" "$room/heard" || return 0
        sleep 0.01
    done
    fail "a gateway: it didn't hear '$1'"
}

# again: what waited at a kill goes out once more, with the same bytes.
again() {
    answers
    issue replay "$device" </dev/null >"$room/waits"
    ended 'what waits' 0 ''
    grep -q '"method":"x.void".*"txn":"g10"' "$room/waits" || fail 'what waits: no notice of a call that was not reached'
    asked_again
    post "$(purchase h1 c3 slow)" >"$room/lost" 2>/dev/null &
    local lost=$!
    heard 'funded .*"event":"h1"'
    killed
    ! wait "$lost" || fail "a program that was killed: it told '$(cat "$room/lost")'"
    issue replay "$device" </dev/null >"$room/waits"
    ended 'what waits' 0 ''
    grep -q '"event":"h1"' "$room/waits" || fail 'what waits: no request of a call that is open'
    asked_again
    told "$(purchase h1 c3 slow)" '200 {"event":"h1","reply":"pending"}'
    for _ in {1..100}; do
        [ "$(post "$(purchase h1 c3 slow)")" = '200 {"event":"h1","reply":"pending"}' ] || break
        sleep 0.1
    done
    told "$(purchase h1 c3 slow)" '200 {"event":"h1","reply":"approved"}'
    told "$(purchase g1 c2 m1)" '200 {"event":"g1","reply":"approved"}'
    [ "$(grep -c '^funded .*"event":"h1"' "$room/heard")" = 1 ] || fail 'a call that was asked again: it was funded twice'
    killed
    stopped
}

# asked_again: what serves on the device sends first what waits.
asked_again() {
    local before
    before=$(wc -l <"$room/heard")
    serve
    listening "$port" 'what serves'
    for _ in {1..500}; do
        [ "$(wc -l <"$room/heard")" -lt "$((before + $(wc -l <"$room/waits")))" ] || break
        sleep 0.01
    done
    tail -n "+$((before + 1))" "$room/heard" | sed 's/^[a-z]* //' | diff "$room/waits" - >&2 ||
        fail 'what waits (<) is not what the gateway hears (>)'
}

# few_handles: with fewer file handles than connections that come, each client is answered, some as if nobody listened for their calls.
few_handles() {
    formatted 1000000
    answers 50
    (
        ulimit -n 24
        exec "$issuer" serve "$device" "$port" "$gateway_port" 4294967295 </dev/null
    ) 2>"$room/said" &
    server=$!
    listening "$port" 'what serves'
    settings
    "$room/load" "$port" 0 200 60 c3 m1 >"$room/replies" 2>"$room/figures" || fail "few handles: $(cat "$room/figures")"
    sed -i '/"approved"/d; /"GATEWAY_CONNECTION"/d' "$room/replies"
    [ ! -s "$room/replies" ] || fail "few handles: $(head -n 3 "$room/replies")"
    killed
    stopped
}

# ends: how a run ends, and what doesn't begin.
ends() {
    formatted 143
    serve
    listening "$port" 'what serves'
    told '{"type":"user","token":"t1","user":"u1"}' "$(done_reply t1)"
    told '{"type":"user","token":"t2","user":"u2"}' "$(done_reply t2)"
    told '{"type":"user","token":"t3","user":"u3"}' '507 {"free":18,"need":20,"reply":"full"}'
    told '{"type":"user","token":"x","user":"y"}' "$(done_reply x)"
    issue serve "$device" "$(some_port)" "$gateway_port" 1
    ended 'a device that another program has open' 4 "$disk"
    cp "$device" "$room/copy"
    issue serve "$room/copy" "$port" "$gateway_port" 1000
    ended 'a port on which another program listens' 3 'issuer: input fault'
    killed
    issue serve "$room/none" "$port" "$gateway_port" 1
    ended 'a device that is not there' 4 "$disk"
    serve 1
    served 'one wait' 0 ''
    # A client whose request isn't whole is let go at the end.
    serve 300
    listening "$port" 'what serves'
    exec {peer}<>"/dev/tcp/127.0.0.1/$port"
    printf 'POST ' >&"$peer"
    served 'three hundred waits' 0 ''
    [ -z "$(timeout 5 cat <&"$peer")" ] || fail 'a client at the end: it was told something'
    exec {peer}>&-
}

if [ -n "$has_curl" ]; then
    page
fi
formatted 1000000
: >"$room/heard"
serve
listening "$port" 'what serves'
settings
requests
crowd
if built gateway; then
    answers
    gateways
    again
    built load
    few_handles
else
    echo "$0: no gcc here: no gateway answers, and what it is asked is left out"
    told "$(purchase g10 c2 m1)" "$(declined g10 GATEWAY_CONNECTION)"
    killed
fi
ends
