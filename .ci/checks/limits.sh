#!/usr/bin/env bash
# The longest line, the deepest nesting and the last product, group, control and set that are taken, and one more of each.
. "$(dirname "$0")/../program.sh"

user='{"type":"user","token":"t1","user":"u1"}'
taken='{"event":"t1","reply":"done"}'
too_long='{"fault":"LONG","reply":"form"}'
no_json='{"fault":"JSON","reply":"form"}'

# told WHAT REPLIES: the program writes these on what stands in $room/in.
told() {
    printf '%s\n' "$2" >"$room/expected"
    issue dry <"$room/in" >"$room/out"
    ended "$1" 0 ''
    wrote "$1" "$room/expected"
}

# padded LENGTH REPLY: a user's line with blanks behind it, of so many bytes, is told this.
padded() {
    printf '%-*s\n' "$1" "$user" >"$room/in"
    told "a line of $1 bytes" "$2"
}

padded 16384 "$taken"
padded 16385 "$too_long"
padded 100000 "$too_long"

# nested DEPTH REPLY: a user's line with so many arrays in one another beside its fields is told this.
nested() {
    local open close
    open=$(printf '[%.0s' $(seq "$1"))
    close=$(printf ']%.0s' $(seq "$1"))
    printf '%s,"deep":%s%s}\n' "${user%\}}" "$open" "$close" >"$room/in"
    told "$1 arrays in an object" "$2"
}

nested 126 "$taken"
nested 127 "$no_json"

# things TYPE REST COUNT: lines that make COUNT things of a type, named n1, n2 and so on, with these fields too.
things() {
    local number
    for number in $(seq "$3"); do
        thing "$1" "t$number" "n$number" "$2"
    done
}

# thing TYPE TOKEN NAME REST: a line that makes or names one.
thing() {
    printf '{"type":"%s","token":"%s","%s":"%s",%s}\n' "$1" "$2" "$1" "$3" "$4"
}

# all REPLY TOKENS..: each of these events gets this.
all() {
    printf '{"event":"%s",'"$1"'}\n' "${@:2}"
}

# numbered FIRST LAST: the tokens t and a number.
numbered() {
    seq -f 't%g' "$1" "$2"
}

done='"reply":"done"'
approved='"reply":"approved"'

# declined REASON TOKENS..: each of these events is declined with it.
declined() {
    all '"reason":"'"$1"'","reply":"declined"' "${@:2}"
}

# Beside the built-in product there is room for 255. Each of them has a switch, the last one too.
gateway='"currency":"EUR","funding":"GATEWAY","timeout_ms":500'
{
    things product "$gateway" 257
    thing product again1 n255 "$gateway"
    thing product again2 default "$gateway"
    printf '%s\n' "$user" | sed 's/"t1"/"u"/'
    for card in 1 255; do
        printf '{"type":"card","token":"c%d","card":"c%d","user":"u1","product":"n%d"}\n' "$card" "$card" "$card"
    done
    for turn in 1:false 2:true 3:false; do
        for name in default n1 n255 n256; do
            printf '{"type":"switch","token":"%s-%d","product":"%s","on":%s}\n' "$name" "${turn%:*}" "$name" "${turn#*:}"
        done
        for card in 1 255; do
            printf '{"type":"authorization","token":"a%d-%d","card":"c%d","currency":"EUR","amount":"1.00","mcc":"5411","mid":"m1"}\n' "$card" "${turn%:*}" "$card"
        done
    done
} >"$room/in"

# asked CARD TURN NUMBER: the gateway is asked for the purchase.
asked() {
    printf '{"amount":"1.00","card":"c%d","currency":"EUR","event":"a%d-%d","mcc":"5411","method":"pgfs.authorization","mid":"m1","number":%d,"token":"00000000-0000-8000-8000-%012x","txn":"a%d-%d","user":"u1"}\n' \
        "$1" "$1" "$2" "$3" "$3" "$1" "$2"
}

# turned TURN: the switches of the products that there are were turned.
turned() {
    all "$done" "default-$1" "n1-$1" "n255-$1"
    declined PRODUCT_UNKNOWN "n256-$1"
}

told 'products up to the last' "$(
    all "$done" $(numbered 1 255)
    declined LIMIT t256 t257
    declined EXISTS again1 again2
    all "$done" u c1 c255
    turned 1 && asked 1 1 1 && asked 255 1 2
    turned 2 && declined GATEWAY_SWITCH a1-2 a255-2
    turned 3 && asked 1 3 3 && asked 255 3 4
)"

{
    things group '"mccs":["5411"]' 257
    thing group again n256 '"mccs":["5411"]'
} >"$room/in"
told 'groups up to the last' "$(
    all "$done" $(numbered 1 256)
    declined LIMIT t257
    declined EXISTS again
)"

limit='"currency":"USD","window":"DAY","amount_limit":"100.00"'
{
    things control "$limit" 257
    thing control again n256 "$limit"
    thing control other n256 "${limit/DAY/WEEK}"
} >"$room/in"
told 'controls up to the last' "$(
    all "$done" $(numbered 1 256)
    declined LIMIT t257
    all "$done" again
    declined CONTROL_FIXED other
)"

# The first set isn't active, so that the second one stands in.
set='"product":"g","currency":"USD","max":"100.00","day_limit":"100.00"'
{
    printf '{"type":"product","token":"g","product":"g","currency":"USD","funding":"GATEWAY"}\n'
    printf '{"type":"product","token":"h","product":"h","currency":"USD","funding":"GATEWAY"}\n'
    things set "$set" 257 | sed '1s/}$/,"active":false}/'
    thing set again n256 "$set"
    thing set other n256 "${set/\"g\"/\"h\"}"
    thing set new n257 "$set"
    thing set second n2 "$set"
    printf '%s\n' "$user" | sed 's/"t1"/"u"/'
    printf '{"type":"card","token":"c","card":"c1","user":"u1","product":"g"}\n'
    printf '{"type":"switch","token":"s","product":"g","on":true}\n'
    printf '{"type":"authorization","token":"%s","card":"c1","currency":"USD","amount":"%s","mcc":"5411","mid":"m1"}\n' a1 100.00 a2 0.01
} >"$room/in"
told 'sets up to the last' "$(
    all "$done" g h $(numbered 1 256)
    declined LIMIT t257
    all "$done" again
    declined SET_FIXED other
    declined LIMIT new
    all "$done" second u c s
    printf '{"amount":"100.00","currency":"USD","gateway":"0.00","method":"x.standin","notice":1,"txn":"a1","user":"u1"}\n'
    all "$approved" a1
    declined STAND_IN_LIMIT:n2 a2
)"
