#!/usr/bin/env bash
# The example gateways, clients and reconciliation. First what a client sends again, and what a gateway answers, of which each answer
# outlasts a kill. Then purchases by six clients, while what serves is killed by signal 9 ten times, and the gateway ten times. Left to
# finish, both sides reconcile: each event is told what every client was told, and nothing is funded twice.
. "$(dirname "$0")/../serving.sh"

[ -x "$reference" ] || make gateway >&2
if ! command -v python3 >/dev/null; then
    echo "$0: no python3 here: no example gateway or client is run"
    exit 0
fi
has_node=$(node -p 'typeof fetch === "function" || ""' 2>/dev/null || true)
[ -n "$has_node" ] || echo "$0: no node of 18 or later here: the examples in JavaScript are left out"

store=$room/store
clients=
leave() {
    local number
    for number in $server $gateway $clients; do
        { kill -9 "$number" && wait "$number"; } 2>/dev/null || true
    done
    rm -rf "$room"
}

# awaited WHAT COMMAND..: the command succeeds within two minutes.
awaited() {
    local what=$1 until=$((SECONDS + 120))
    shift
    until "$@"; do
        [ "$SECONDS" -lt "$until" ] || fail "$what: waited for in vain"
        sleep 0.01
    done
}

# funds PROGRAM..: this gateway answers on $gateway_port by what is in $store.
funds() {
    "$@" "$gateway_port" "$store" USD=20.00 2>>"$room/complaints" &
    gateway=$!
    awaited 'a gateway' listens "$gateway_port"
}

# A token, by its call's number.
token() {
    printf '00070000-0000-8000-8000-%012d' "$1"
}

# request CALL TXN AMOUNT [METHOD]
request() {
    printf '{"amount":"%s","card":"c1","currency":"USD","event":"%s","mcc":"5411","method":"pgfs.authorization%s",' "$3" "$2" "${4:-}"
    printf '"mid":"m1","number":%d,"token":"%s","txn":"%s","user":"u1"}' "$1" "$(token "$1")" "$2"
}

# void CALL TXN AMOUNT NOTICE
void() {
    printf '{"amount":"%s","currency":"USD","gateway":"0.00","method":"x.void","notice":%d,' "$3" "$4"
    printf '"token":"%s","txn":"%s","user":"u1"}' "$(token "$1")" "$2"
}

# capture TXN GATEWAY NOTICE: what a clearing of 1.00 says that lets so much go back to the gateway.
capture() {
    printf '{"amount":"1.00","currency":"USD","gateway":"%s","method":"pgfs.authorization.capture","notice":%d,' "$2" "$3"
    printf '"txn":"%s","user":"u1"}' "$1"
}

# answered STATUS TEXT [BODY]: the gateway answers the text so.
answered() {
    local peer
    exec {peer}<>"/dev/tcp/127.0.0.1/$gateway_port"
    printf 'POST /jit HTTP/1.1\r\nHost: localhost\r\nContent-Length: %d\r\n\r\n%s' "${#2}" "$2" >&"$peer"
    timeout 60 cat <&"$peer" | tr -d '\r' >"$room/answer"
    exec {peer}>&-
    grep -q "^HTTP/1.[01] $1 " "$room/answer" || fail "a gateway: to '$2' it answers '$(cat "$room/answer")', not $1"
    grep -q "${3:-}" "$room/answer" || fail "a gateway: in '$(cat "$room/answer")' there is no '$3'"
}

# what_lasts: what each gateway has to answer before a kill, and after it.
what_lasts() {
    answered 200 "$(request 1 a1 5.00)" "$(token 1)"
    answered 402 "$(request 1 a9 5.00)"
    answered 402 "$(request 2 a2 20.01)"
    answered 402 "$(request 4 a3 5.01 .incremental)"
    answered 200 "$(void 5 a5 1.00 1)"
    answered 402 "$(request 5 a5 1.00)"
    answered 200 "$(void 3 a3 15.00 2)"
    answered 402 "$(request 3 a3 15.00)"
    answered 200 "$(request 6 a3 20.00)" "$(token 6)"
    answered 200 "$(capture a3 19.00 3)"
    answered 409 "$(capture a3 18.00 3)"
    answered 409 "$(void 3 a3 15.00 1)"
    answered 409 "$(void 1 a9 5.00 4)"
    answered 400 "$(capture a3 19 5)"
    answered 400 '{"method":"x.void"}'
    answered 400 '[]'
    answered 400 'nothing'
}

# answers_well PROGRAM..: this gateway, with a kill, after which its store ends in half a line.
answers_well() {
    rm -f "$store"
    funds "$@"
    answered 200 "$(request 3 a3 15.00)"
    what_lasts
    stopped
    cp "$store" "$room/whole"
    printf 'funded {"amount"' >>"$store"
    funds "$@"
    # It takes its port first, and then mends its store.
    awaited "$2: after a kill its store isn't what it answered" cmp -s "$store" "$room/whole"
    what_lasts
    stopped
    cmp -s "$store" "$room/whole" || fail "$2: what came again is in its store twice"
    said=$(cat "$room/complaints")
    [ "$said" = "$(complaints && complaints)" ] || fail "$2: it said '$said'"
    rm "$room/complaints"
}

# complaints: what a gateway says of what_lasts.
complaints() {
    printf '%s came with another text\n' "token $(token 1)" 'notice 3' 'notice 1' 'notice 4'
}

# posts_on PROGRAM..: this client sends the same bytes again until a response decides them. What it talks to gives it five responses that
# don't for its first line, and one for each other line; that for the last one is no issuer's. Then the client gets a word that is no URL.
posts_on() {
    python3 - "$port" >"$room/heard" <<'LINES' &
import sys
from http.server import BaseHTTPRequestHandler, HTTPServer

# Each with more bytes to come than come, if it is cut.
CUT = 9
ANSWERS = [None, (200, '{"reply"', CUT), (502, "", 0), (408, "", 0), (200, '{"event":"a","reply":"pending"}\n', 0)]
ANSWERS += [(200, '{"event":"a","reply":"done"}\n', 0), (409, "conflict", 0), (507, "full", 0), (200, '{"event":"d","reply":"done"}\n', 0)]
ANSWERS += [(200, "nothing", 0)]


class Issuer(BaseHTTPRequestHandler):
    def do_POST(self):
        print(self.path, self.rfile.read(int(self.headers["Content-Length"])).decode(), flush=True)
        answer = ANSWERS.pop(0) if ANSWERS else (404, "", 0)
        if answer:
            status, text, missing = answer
            self.send_response(status)
            self.send_header("Content-Length", str(len(text) + missing))
            self.end_headers()
            self.wfile.write(text.encode())

    def log_message(self, *_):
        pass


HTTPServer(("127.0.0.1", int(sys.argv[1])), Issuer).serve_forever()
LINES
    server=$!
    awaited 'what a client talks to' listens "$port"
    status=0
    printf '%s\n' a b '' c d ' ' e | timeout 120 "$@" "http://127.0.0.1:$port/events" >"$room/out" 2>"$room/said" || status=$?
    killed
    ended "$2" 1 $'409: conflict\n507: full\n200: nothing'
    printf '{"event":"%s","reply":"done"}\n' a d >"$room/expected"
    wrote "$2" "$room/expected"
    printf '/events %s\n' a a a a a a b c d e | diff - "$room/heard" >&2 || fail "$2: it didn't send that (<)"
    status=0
    timeout 20 "$@" "127.0.0.1:$port/events" <<<a 2>"$room/said" || status=$?
    ended "$2" 1 "${2##*/}: no URL of http or https: 127.0.0.1:$port/events"
    # Nobody listens: it says so, and tries on.
    rm "$room/said"
    "$@" "http://127.0.0.1:$port/events" <<<a >"$room/out" 2>"$room/said" &
    server=$!
    awaited "$2, while nobody listens" test -s "$room/said"
    status=0
    kill -0 "$server" || status=$?
    killed
    ended "$2, while nobody listens" 0 "${2##*/}: http://127.0.0.1:$port/events: nobody listens, and it tries on"
}

# reconciled STATUS BALANCE COUNT: the store of those answers, beside a report of the issuer.
reconciled() {
    status=0
    printf '{"account":"gateway","balance":"%s","currency":"USD"}\n{"calls":%d,"notices":0,"records":9}\n' "$2" "$3" |
        python3 examples/gateway/reconcile.py "$store" >"$room/sides" || status=$?
    [ "$status" = "$1" ] || fail "reconcile.py: status $status, not $1: $(cat "$room/sides")"
}

# lines CLIENT: the events that this client posts. A purchase of 21.00 is refused, and so is more of one over 20.00.
lines() {
    awk -v client="$1" 'BEGIN {
        split("1.00 2.50 21.00 19.50", amount, " ")
        for (i = 1; i <= 40; i++) {
            txn = client "-" i
            printf "{\"type\":\"authorization\",\"token\":\"%s\",\"card\":\"c1\",\"currency\":\"USD\",", txn
            printf "\"amount\":\"%s\",\"mcc\":\"5411\",\"mid\":\"m1\"}\n", amount[i % 4 + 1]
            later("increment", "1.00")
            later(i % 3 ? "clearing" : "reversal", "0.75")
        }
    }
    function later(type, sum) {
        printf "{\"type\":\"%s\",\"token\":\"%s-%s\",\"txn\":\"%s\",\"currency\":\"USD\",\"amount\":\"%s\"%s}\n",
            type, txn, type, txn, sum, i % 2 && type == "clearing" ? ",\"final\":true" : ""
    }'
}

# post NUMBER PROGRAM..: a client posts its lines, and what it is told stands in told.NUMBER.
post() {
    lines "$1" >"$room/lines.$1"
    "${@:2}" "http://127.0.0.1:$port/events" <"$room/lines.$1" >"$room/told.$1" &
    clients="$clients $!"
}

# told COUNT: the clients were told so much.
told() {
    [ "$(cat "$room"/told.* | wc -l)" -ge "$1" ]
}

is_free() {
    ! listens "$1"
}

gone() {
    ! kill -0 "$1" 2>/dev/null
}

# serve_well: what serves takes clients.
serve_well() {
    serve
    awaited 'what serves' listens "$port"
}

# settled_sides: both sides are left to finish, each time for longer, until nothing is under way.
settled_sides() {
    local turns
    for turns in {1..40}; do
        issue serve "$device" "$port" "$gateway_port" $((100 * turns))
        ended 'what serves' 0 ''
        issue balances "$device" >"$room/balances"
        ended 'balances' 0 ''
        ! grep -q '"calls":0,"notices":0' "$room/balances" || return 0
    done
    fail "in the end this is under way: $(tail -n 1 "$room/balances")"
}

# page: the lines of docs/RECIPES.md on a gateway and on reconciliation, in a shell of their own, in a folder in which the program is
# built. The ports are this check's own.
page() {
    local shell
    status=0
    mkdir -p "$room/page/build"
    cp "$issuer" "$room/page/build/issuer"
    cp "$reference" "$room/page/build/issuer_gateway"
    ln -s "$PWD/examples" "$room/page/examples"
    awk '/^## / { is_ours = /^## (A gateway and clients|Reconciliation)/ } /^```/ { inside = !inside; next } inside && is_ours' \
        docs/RECIPES.md | sed "s/8080/$port/g; s/8081/$gateway_port/g" >"$room/page/lines"
    # The page's own programs end with its shell, whose process group they are in.
    (cd "$room/page" && exec setsid timeout 120 bash lines) >"$room/page/out" 2>"$room/page/said" &
    shell=$!
    wait "$shell" || status=$?
    kill -9 -- "-$shell" 2>/dev/null || true
    awaited 'the end of the page' is_free "$gateway_port"
    [ "$status" = 0 ] || fail "docs/RECIPES.md: status $status, and it said '$(cat "$room/page/said" "$room/page/out")'"
    diff - "$room/page/out" >&2 <<'LINES' || fail "docs/RECIPES.md: it was told otherwise, and said '$(cat "$room/page/said")'"
{"event":"p1","reply":"done"}
{"event":"t1","reply":"done"}
{"event":"t2","reply":"done"}
{"event":"a1","reply":"approved"}
{"event":"i1","reason":"GATEWAY_DECLINED","reply":"declined"}
{"event":"k1","reply":"done"}
{"event":"p1","reply":"done"}
{"event":"t1","reply":"done"}
{"event":"t2","reply":"done"}
{"event":"a1","reply":"approved"}
{"event":"i1","reason":"GATEWAY_DECLINED","reply":"declined"}
{"event":"k1","reply":"done"}
USD: gateway 40.00, issuer 40.00, difference 0.00
under way: 0 calls, 0 notices
LINES
}

if command -v curl >/dev/null; then
    page
else
    echo "$0: no curl here: the lines of docs/RECIPES.md are left out"
fi

posts_on python3 examples/client/client.py
python=(python3 examples/gateway/gateway.py)
answers_well "${python[@]}"
reconciled 0 -6.00 0
reconciled 1 -5.00 0
reconciled 3 -5.00 1
if [ -n "$has_node" ]; then
    cp "$store" "$room/python"
    posts_on node examples/client/client.js
    answers_well node examples/gateway/gateway.js
    cmp -s "$store" "$room/python" || fail 'the two gateways keep different stores'
fi

rm -f "$store"
formatted 1000000
cat >"$room/settings" <<'LINES'
{"type":"product","token":"p1","product":"g","currency":"USD","funding":"GATEWAY","timeout_ms":60000}
{"type":"user","token":"t1","user":"u1"}
{"type":"card","token":"t2","card":"c1","user":"u1","product":"g"}
LINES
issue replay "$device" <"$room/settings" >/dev/null
ended 'the settings' 0 ''
funds "${python[@]}"
serve_well
for number in 1 2 3 4; do
    post "$number" python3 examples/client/client.py
done
for number in 5 6; do
    if [ -n "$has_node" ]; then
        post "$number" node examples/client/client.js
    else
        post "$number" python3 examples/client/client.py
    fi
done

# Each kill comes amid the events, as so many of them were told by then.
all=$(cat "$room"/lines.* | wc -l)
for ((kills = 1; kills <= 20; kills++)); do
    awaited 'the clients' told $((all * kills / 21 - RANDOM % (all / 42)))
    if ((kills % 2)); then
        killed
        serve_well
    else
        stopped
        funds "${python[@]}"
    fi
done
for client in $clients; do
    awaited 'a client' gone "$client"
    wait "$client" || fail 'a client: a line was not taken'
done
clients=
killed
settled_sides
stopped
python3 examples/gateway/reconcile.py "$store" <"$room/balances" >"$room/sides" || fail "they don't reconcile: $(cat "$room/sides")"
[ ! -s "$room/complaints" ] || fail "the gateway: it said '$(tail -n 5 "$room/complaints")'"

# The device tells the same again of each event.
cat "$room"/lines.* >"$room/in"
issue replay "$device" <"$room/in" >"$room/out"
ended 'all events again' 0 ''
cat "$room"/told.* | diff - "$room/out" >"$room/differ" || fail "a client was told otherwise (<): $(head -n 5 "$room/differ")"

# Each token is funded once and not after its void, and each event that is approved has one token that is funded and not void.
awk -v out="$room/out" '
    function member(name) {
        return match($0, "\"" name "\":\"[^\"]*\"") ? substr($0, RSTART + length(name) + 4, RLENGTH - length(name) - 5) : ""
    }
    function bad(what) { print what ": " $0; wrong = 1 }
    { token = member("token") }
    $1 == "funded" && (token in paid || token in voided) { bad("funded twice, or after its void") }
    $1 == "funded" { paid[token] = member("event") }
    /"method":"x.void"/ { voided[token] = 1 }
    END {
        for (token in paid) if (!(token in voided)) events[paid[token]]++
        while ((getline <out) > 0) if (/"reply":"approved"/) {
            if (events[member("event")] != 1) bad("approved, and not funded once")
            delete events[member("event")]
        }
        for (event in events) { $0 = event; bad("funded, and neither approved nor void") }
        exit wrong
    }
' "$store" >"$room/wrong" || fail "$(head -n 5 "$room/wrong")"
for word in approved GATEWAY_DECLINED done; do
    grep -q "\"$word\"" "$room/out" || fail "no event came to $word"
done
