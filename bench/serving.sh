# Sourced by serve.sh and calls.sh: a device that is served on the loopback of this machine, its gateway (bench/gateway.c) and clients
# (bench/load.c). ISSUER names another program than build/issuer.
command -v gcc >/dev/null || { echo "$0: no gcc here, so there are no clients and no gateway" >&2; exit 1; }
issuer=${ISSUER:-build/issuer}
server=
gateway=

# in_folder FOLDER: makes what follows keep its device there until this shell ends.
in_folder() {
    mkdir -p build
    folder=$(mktemp -d "$1/bench.XXXXXX")
    room=$(mktemp -d)
    device=$folder/device
    trap leave EXIT
    for program in gateway load replay; do
        gcc -O2 -Wall -o "$room/$program" "bench/$program.c"
    done
    ulimit -n "$(ulimit -Hn)"
    port=$((20000 + RANDOM % 10000))
    gateway_port=$((port + 1))
    cat >"$room/settings" <<'END'
{"type":"product","token":"p1","product":"g","currency":"USD","funding":"GATEWAY","timeout_ms":60000}
{"type":"user","token":"t1","user":"u1"}
{"type":"card","token":"t2","card":"c1","user":"u1","product":"g"}
END
}

leave() {
    [ -z "$server" ] || stopped
    rm -rf "$room" "$folder"
}

# started MILLIS [WORD..]: serves a new device, by the command that these words begin, and a gateway answers after MILLIS milliseconds.
started() {
    rm -f "$device"
    "$issuer" format "$device" 64000000 0
    "$issuer" replay "$device" <"$room/settings" >"$room/texts"
    "$room/gateway" "$gateway_port" "$1" >"$room/heard" &
    gateway=$!
    until (exec {peer}<>"/dev/tcp/127.0.0.1/$gateway_port") 2>/dev/null; do
        sleep 0.01
    done
    "${@:2}" "$issuer" serve "$device" "$port" "$gateway_port" 4294967295 &
    server=$!
}

# stopped: ends the gateway and the program, and waits for what was begun with it.
stopped() {
    kill "$gateway" $(pgrep -P "$server" || echo "$server")
    wait "$server" "$gateway" 2>/dev/null || true
    server=
    gateway=
}
