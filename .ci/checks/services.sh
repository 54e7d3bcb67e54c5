#!/usr/bin/env bash
# The files of examples/nginx and examples/systemd. nginx takes the first two, on other ports, and stands before what serves and before
# the example gateway: what passes, what doesn't, what is up, and what its logs say. systemd takes the third without a complaint.
. "$(dirname "$0")/../serving.sh"

proxy=
leave() {
    local number
    for number in $server $gateway $proxy; do
        { kill -9 "$number" && wait "$number"; } 2>/dev/null || true
    done
    rm -rf "$room"
}

# awaited WHAT COMMAND..: the command succeeds within two minutes.
awaited() {
    local what=$1 until=$((SECONDS + 120))
    shift
    until "$@"; do
        [ "$SECONDS" -lt "$until" ] || fail "$what: waited for in vain"
        sleep 0.01
    done
}

# another_port PORT..: one that nobody listens on, and none of these.
another_port() {
    local other
    until other=$(some_port) && [[ " $* " != *" $other "* ]]; do :; done
    echo "$other"
}

# said BYTES: the status of nginx's response to these bytes, and the last line of its body.
said() {
    local peer
    exec {peer}<>"/dev/tcp/127.0.0.1/$front"
    printf '%b' "$1" >&"$peer"
    timeout 60 cat <&"$peer" | tr -d '\r' | sed -n 's/^HTTP\/1.1 \([0-9]*\) .*/\1/p; $p' | paste -d ' ' - -
    exec {peer}>&-
}

# told WHAT RESPONSE BYTES: a request of these bytes is answered so.
told() {
    local answer
    answer=$(said "$3")
    [[ "$answer" = $2 ]] || fail "$1: told '$answer', not '$2'"
}

# post LINE: a request with this line, for told.
post() {
    printf 'POST /events HTTP/1.1\\r\\nHost: a\\r\\nConnection: close\\r\\nContent-Length: %d\\r\\n\\r\\n%s' "${#1}" "$1"
}

# get PATH
get() {
    printf 'GET %s HTTP/1.1\\r\\nHost: a\\r\\nConnection: close\\r\\n\\r\\n' "$1"
}

# purchase EVENT
purchase() {
    printf '{"type":"authorization","token":"%s","card":"c1","currency":"USD","amount":"1.00","mcc":"5411","mid":"m1"}' "$1"
}

# is_up RESPONSE: what nginx says of the issuer.
is_up() {
    [[ "$(said "$(get /up)")" = $1 ]]
}

# start_nginx: nginx with both files, whose ports are others here, and whose logs are in $room.
start_nginx() {
    front=$(another_port "$port" "$gateway_port")
    behind=$(another_port "$port" "$gateway_port" "$front")
    mkdir "$room/logs"
    sed "s/:8000/:$front/; s/:8080/:$port/; s|/var/log/nginx|$room/logs|" examples/nginx/issuer.conf >"$room/issuer.conf"
    sed "s/:8081/:$gateway_port/; s/:9000/:$behind/; s|/var/log/nginx|$room/logs|" examples/nginx/gateway.conf >"$room/gateway.conf"
    cat >"$room/nginx.conf" <<LINES
daemon off;
master_process off;
pid $room/pid;
error_log $room/logs/error;
events {}
http {
    client_body_temp_path $room/body;
    proxy_temp_path $room/proxy;
    fastcgi_temp_path $room/fastcgi;
    uwsgi_temp_path $room/uwsgi;
    scgi_temp_path $room/scgi;
    include $room/issuer.conf;
    include $room/gateway.conf;
}
LINES
    nginx -t -e "$room/logs/error" -p "$room" -c "$room/nginx.conf" 2>"$room/complaints" || fail "nginx: $(cat "$room/complaints")"
    ! grep -v 'syntax is ok\|test is successful' "$room/complaints" || fail 'nginx: it complains'
    nginx -e "$room/logs/error" -p "$room" -c "$room/nginx.conf" &
    proxy=$!
    awaited nginx listens "$front"
}

settings() {
    told 'a product' '200 {"event":"p1","reply":"done"}' \
        "$(post '{"type":"product","token":"p1","product":"g","currency":"USD","funding":"GATEWAY","timeout_ms":60000}')"
    told 'a user' '200 {"event":"t1","reply":"done"}' "$(post '{"type":"user","token":"t1","user":"u1"}')"
    told 'a card' '200 {"event":"t2","reply":"done"}' "$(post '{"type":"card","token":"t2","card":"c1","user":"u1","product":"g"}')"
}

# before_the_issuer: what nginx lets through, and what it says itself.
before_the_issuer() {
    local line='{"type":"user","token":"t1","user":"u1"}'
    told 'a chunked body' '200 {"event":"t1","reply":"done"}' \
        "POST /events HTTP/1.1\\r\\nHost: a\\r\\nConnection: close\\r\\nTransfer-Encoding: chunked\\r\\n\\r\\n28\\r\\n$line\\r\\n0\\r\\n\\r\\n"
    told 'a bad line' '400 {"fault":"JSON","reply":"form"}' "$(post nothing)"
    told 'another method' '400 {"fault":"METHOD","reply":"http"}' "$(get /events)"
    told 'another path' '404 *' "$(get /x)"
    told 'a body as long as may be' '400 {"fault":"JSON","reply":"form"}' "$(post "$(head -c 16384 /dev/zero | tr '\0' x)")"
    told 'a longer body' '413 *' 'POST /events HTTP/1.1\r\nHost: a\r\nConnection: close\r\nContent-Length: 16385\r\n\r\n'
}

# before_a_gateway: what an issuer hears of a gateway that is gone, of one that answers, and of one whose answer is chunked.
before_a_gateway() {
    told 'no gateway' '200 {"event":"a1","reason":"GATEWAY_CONNECTION","reply":"declined"}' "$(post "$(purchase a1)")"
    if ! command -v python3 >/dev/null; then
        echo "$0: no python3 here: no gateway stands behind nginx, and its logs aren't read"
        return
    fi
    python3 examples/gateway/gateway.py "$behind" "$room/store" USD=1.00 &
    gateway=$!
    awaited 'a gateway' listens "$behind"
    told 'a gateway' '200 {"event":"a2","reply":"approved"}' "$(post "$(purchase a2)")"
    stopped
    python3 - "$behind" <<'LINES' &
import json
import sys
from http.server import BaseHTTPRequestHandler, HTTPServer


class Chunked(BaseHTTPRequestHandler):
    protocol_version = "HTTP/1.1"

    def do_POST(self):
        asked = json.loads(self.rfile.read(int(self.headers["Content-Length"])))
        told = json.dumps({name: asked[name] for name in ("token", "amount") if name in asked}).encode()
        self.send_response(200)
        self.send_header("Transfer-Encoding", "chunked")
        self.end_headers()
        self.wfile.write(b"%x\r\n%s\r\n0\r\n\r\n" % (len(told), told))

    def log_message(self, *_):
        pass


HTTPServer(("127.0.0.1", int(sys.argv[1])), Chunked).serve_forever()
LINES
    gateway=$!
    awaited 'a gateway' listens "$behind"
    told 'a gateway whose answer is chunked' '200 {"event":"a3","reply":"approved"}' "$(post "$(purchase a3)")"
    stopped
    awaited 'the logs' logged
}

# logged: each line of the logs is JSON, and has what was sent.
logged() {
    python3 - "$room/logs" <<'LINES'
import json
import sys

events, texts = ([json.loads(line) for line in open(f"{sys.argv[1]}/{name}.json")] for name in ("issuer", "gateway"))
posted = {json.loads(line["event"])["token"] for line in events if line["status"] == 200}
asked = {json.loads(line["text"])["txn"]: line["status"] for line in texts}
sys.exit(posted != {"p1", "t1", "t2", "a1", "a2", "a3"} or asked != {"a1": 444, "a2": 200, "a3": 200})
LINES
}

# monitored: the lines of docs/RECIPES.md on monitoring, with this check's port and logs, tell what came.
monitored() {
    awk '/^## / { is_ours = /^## Monitoring/ } /^```/ { inside = !inside; next } inside && is_ours' docs/RECIPES.md |
        sed "s/:8000/:$front/; s|/var/log/nginx|$room/logs|" >"$room/lines"
    bash "$room/lines" 2>&1 | sed 's/^ *//' | diff - /dev/fd/3 3<<'LINES' >"$room/differ"
up
7 "status":200
3 "status":400
1 "status":404
1 "status":413
2 "status":200
2 "status":444
LINES
}

if [[ "$(nginx -h 2>&1)" = *'-e filename'* ]]; then
    start_nginx
    awaited 'an issuer that is gone' is_up '502 *'
    formatted 100000
    serve
    awaited 'an issuer that is up' is_up '200 up'
    settings
    before_the_issuer
    before_a_gateway
    if command -v curl >/dev/null && command -v python3 >/dev/null; then
        awaited 'docs/RECIPES.md, monitoring' monitored
    fi
else
    echo "$0: no nginx of 1.20 or later here: its files aren't tried"
fi

# verified: what systemd says of the unit. It may complain of others too, which are the machine's own.
verified() {
    # The program that it starts has to be there.
    sed "s|/usr/local/bin/issuer|$PWD/$issuer|" 'examples/systemd/issuer@.service' >"$room/issuer@.service"
    status=0
    systemd-analyze verify "$room/issuer@.service" >"$room/complaints" 2>&1 || status=$?
    ! grep 'issuer@' "$room/complaints" || fail 'systemd: it complains'
    [ "$status" = 0 ] || echo "$0: systemd-analyze can't verify a unit here: $(tail -n 1 "$room/complaints")"
}

# The unit has keys that came with systemd 247.
if version=$(systemd-analyze --version 2>/dev/null | sed -n '1s/^systemd \([0-9]*\).*/\1/p') && [ "${version:-0}" -ge 247 ]; then
    verified
else
    echo "$0: no systemd of 247 or later here: its file isn't tried"
fi
