#!/usr/bin/env bash
# Two hundred runs that serve and are killed by signal 9 at some moment, most of them under load and with calls to a gateway in flight.
# After each the device has every reply that a client saw, and the next run sends what waits for the gateway with the same bytes. The
# gateway, which funds each token once, has funded nothing twice in the end, and nothing for a purchase that was declined without
# being told so.
. "$(dirname "$0")/../serving.sh"

if ! built gateway || ! built load; then
    echo "$0: no gcc here: no run that serves is killed under load"
    exit 0
fi

kills=200
flight=20
# What the gateway does with the calls, in turn.
names=m1,m1,m1,bytes,m1,refuses,m1,slow,garbled,m1,silent,m1,early,m1,fails,m1

# lines FIRST COUNT: the purchases that the clients post (bench/load.c).
lines() {
    awk -v first="$1" -v count="$2" -v names="$names" 'BEGIN {
        kinds = split(names, name, ",")
        for (i = first; i < first + count; i++) {
            printf "{\"type\":\"authorization\",\"token\":\"e%d\",\"card\":\"c1\",", i
            printf "\"currency\":\"USD\",\"amount\":\"1.00\",\"mcc\":\"5411\",\"mid\":\"%s\"}\n", name[i % kinds + 1]
        }
    }'
}

# moment LEAST MOST: so many milliseconds, in seconds.
moment() {
    printf '0.%03d' $((RANDOM % ($2 - $1) + $1))
}

# read_waiting: what waits for the gateway on the device, without touching it.
read_waiting() {
    cp "$device" "$room/copy"
    issue replay "$room/copy" </dev/null >"$room/waits"
    ended 'after a kill' 0 ''
}

# keeps_seen FIRST COUNT: the device has each reply that was seen of these events: they come again.
keeps_seen() {
    sed -n 's/^[^ ]* 200 //; /"pending"/!p' "$room/now" | sort >"$room/seen"
    lines "$1" "$2" >"$room/in"
    issue replay "$room/copy" <"$room/in" >"$room/out"
    ended 'the same events again' 0 ''
    sort "$room/out" | comm -23 "$room/seen" - >"$room/lost"
    [ ! -s "$room/lost" ] || fail "after a kill: of what was seen this isn't told again: $(head -n 3 "$room/lost")"
}

# sent_again: the gateway heard all that waited before this run, byte by byte.
sent_again() {
    settled
    tail -n "+$((heard + 1))" "$room/heard" | sed 's/^[a-z]* //' | sort >"$room/sent"
    sort "$room/waits" | comm -23 - "$room/sent" >"$room/lost"
    [ ! -s "$room/lost" ] || fail "what waits isn't sent again: $(head -n 3 "$room/lost")"
}

formatted 8000000
cat >"$room/settings" <<'END'
{"type":"product","token":"p1","product":"g","currency":"USD","funding":"GATEWAY","timeout_ms":400}
{"type":"user","token":"t1","user":"u1"}
{"type":"card","token":"t2","card":"c1","user":"u1","product":"g"}
END
issue replay "$device" <"$room/settings" >/dev/null
ended 'the settings' 0 ''
: >"$room/heard"
: >"$room/all"
answers 3
read_waiting
next=0
loaded=0
open=0
for ((killed = 0; killed < kills; killed++)); do
    settled
    heard=$(wc -l <"$room/heard")
    : >"$room/now"
    serve
    if [ $((killed % 8)) = 7 ]; then
        # Within its opening, or while it sends what waits.
        sleep "$(moment 5 40)"
        killed
    else
        listening "$port" 'what serves'
        "$room/load" "$port" "$next" 100000 "$flight" c1 "$names" >"$room/now" 2>"$room/figures" &
        load=$!
        sleep "$(moment 40 160)"
        killed
        wait "$load" && fail 'a run that was killed answered all' || true
        read -r begun answered _ <"$room/figures"
        loaded=$((loaded + (answered > 0)))
        [ "$answered" = 0 ] || sent_again
    fi
    read_waiting
    ! grep -q '"method":"pgfs' "$room/waits" || open=$((open + 1))
    if [ -s "$room/now" ]; then
        keeps_seen "$next" "$begun"
        cat "$room/now" >>"$room/all"
        # Those that weren't answered are sent once more, as a client would.
        next=$((next + (begun > flight ? begun - flight : 0)))
    fi
done
[ "$loaded" -gt $((kills / 2)) ] || fail "only $loaded of $kills runs answered anything"
[ "$open" -gt $((kills / 2)) ] || fail "only $open of $kills runs left a call open"

# Further runs, until all calls are closed and all notices acknowledged.
for _ in {1..20}; do
    serve
    sleep 1
    killed
    read_waiting
    [ -s "$room/waits" ] || break
done
[ ! -s "$room/waits" ] || fail "in the end this waits: $(head -n 3 "$room/waits")"

# All replies that were ever seen are one for each event, and are told again.
sed -n 's/^[^ ]* 200 //; /"pending"/!p' "$room/all" | sort -u >"$room/replies"
cut -d '"' -f 4 "$room/replies" | uniq -d >"$room/twice"
[ ! -s "$room/twice" ] || fail "two replies to one event: $(grep "$(head -n 1 "$room/twice")" "$room/replies")"
lines 0 "$((next + flight))" >"$room/in"
issue replay "$room/copy" <"$room/in" >"$room/out"
ended 'all events again' 0 ''
sort -u "$room/out" | comm -13 - "$room/replies" >"$room/lost"
[ ! -s "$room/lost" ] || fail "in the end this isn't told again: $(head -n 3 "$room/lost")"

# Each call has one text, each event one call, and each token that was funded its purchase or its void.
awk -v out="$room/out" '
    function member(name) {
        return match($0, "\"" name "\":\"[^\"]*\"") ? substr($0, RSTART + length(name) + 4, RLENGTH - length(name) - 5) : ""
    }
    function bad(what) { print what ": " $0; wrong = 1 }
    {
        done = $1
        text = substr($0, length(done) + 2)
        token = member("token")
    }
    /"method":"x.void"/ { voided[token] = 1; next }
    /"notice":/ { next }
    {
        event = member("event")
        if (texts[token] != "" && texts[token] != text) bad("another text of one call")
        if (calls[event] != "" && calls[event] != token) bad("another call of one event")
        texts[token] = text
        calls[event] = token
    }
    done == "funded" { if (funded[token]++) bad("funded twice"); paid[token] = event }
    END {
        while ((getline <out) > 0) if (/"reply":"approved"/) approved[member("event")] = 1
        $0 = ""
        for (token in paid) {
            if (!(paid[token] in approved) && !(token in voided)) bad("funded and neither approved nor void: " token)
            if (paid[token] in approved && token in voided) bad("approved and void: " token)
        }
        for (event in approved) if (!(calls[event] in paid)) bad("approved and not funded: " event)
        exit wrong
    }
' "$room/heard" >"$room/wrong" || fail "$(head -n 5 "$room/wrong")"
