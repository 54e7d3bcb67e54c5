# What the checks of serving begin with: the program, ports that nobody listens on, a program that serves and a gateway beside it, and
# where the reference gateway is that rt ci left.
. "$(dirname "${BASH_SOURCE[0]}")/program.sh"

reference=crates/issuer_gateway/out/issuer_gateway
device=$room/device
server=
gateway=
leave() {
    local number
    for number in $server $gateway; do
        { kill -9 "$number" && wait "$number"; } 2>/dev/null || true
    done
    rm -rf "$room"
}

# listens PORT: somebody listens on this port.
listens() {
    (exec {peer}<>"/dev/tcp/127.0.0.1/$1") 2>/dev/null
}

# some_port: a port that nobody listens on.
some_port() {
    local port
    for _ in {1..100}; do
        port=$((20000 + RANDOM % 12000))
        listens "$port" || break
    done
    echo "$port"
}

# listening PORT WHAT: somebody does so within a minute.
listening() {
    local until=$((SECONDS + 60))
    until listens "$1"; do
        [ "$SECONDS" -lt "$until" ] || fail "$2: nobody listens on port $1"
        sleep 0.01
    done
}

# built NAME: the program in C of this name is in $room, where this machine can build it.
built() {
    command -v gcc >/dev/null && gcc -O2 -o "$room/$1" "bench/$1.c"
}

formatted() {
    rm -f "$device"
    issue format "$device" "$1" 7
    ended "a device of $1 bytes" 0 ''
}

# serve [TURNS]: serves the device on $port, with a gateway on $gateway_port.
serve() {
    "$issuer" serve "$device" "$port" "$gateway_port" "${1:-4294967295}" </dev/null 2>"$room/said" &
    server=$!
}

# served WHAT STATUS LINE: what serves ends by itself, so.
served() {
    status=0
    wait "$server" || status=$?
    server=
    ended "$1" "$2" "$3"
}

# killed: what serves is killed.
killed() {
    kill -9 "$server"
    wait "$server" 2>/dev/null || true
    server=
}

# answers [MILLIS]: a gateway answers on $gateway_port, after so long, and notes what it does with what text in $room/heard.
answers() {
    "$room/gateway" "$gateway_port" "${1:-0}" >>"$room/heard" &
    gateway=$!
    listening "$gateway_port" 'a gateway'
}

# settled: the gateway has heard all that was sent to it before.
settled() {
    local peer text='{"notice":0,"txn":"check"}'
    exec {peer}<>"/dev/tcp/127.0.0.1/$gateway_port"
    printf 'POST /jit HTTP/1.1\r\nContent-Length: %d\r\n\r\n%s' "${#text}" "$text" >&"$peer"
    timeout 20 cat <&"$peer" >"$room/check"
    exec {peer}>&-
    grep -q '^HTTP/1.1 200' "$room/check" || fail 'a gateway: it does not answer'
}

stopped() {
    kill -9 "$gateway"
    wait "$gateway" 2>/dev/null || true
    gateway=
}

port=$(some_port)
gateway_port=$(some_port)
while [ "$gateway_port" = "$port" ]; do
    gateway_port=$(some_port)
done
