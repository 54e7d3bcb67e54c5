#!/usr/bin/env bash
# Drills: the worked lines of one and of three events; one of 300 beside the same events made here as texts and replayed one by one; and one
# of 100000 within a minute, with the line that is kept here.
. "$(dirname "$0")/../program.sh"

# drilled NUMBER LINE: a drill of NUMBER events writes this line, within a minute.
drilled() {
    local start=$SECONDS
    issue drill "$1" </dev/null >"$room/out"
    ended "drill $1" 0 ''
    [ $((SECONDS - start)) -le 60 ] || fail "drill $1: it took $((SECONDS - start)) seconds"
    printf '%s\n' "$2" >"$room/line"
    wrote "drill $1" "$room/line"
}

drilled 1 '{"approved":0,"declined":1,"gateway":"0.00","held":"0.00","lines":24,"network":"0.00","notices":0,"programme":"0.00","records":24,"repeats":0}'
drilled 3 '{"approved":1,"declined":2,"gateway":"-1.14","held":"1.14","lines":27,"network":"0.00","notices":0,"programme":"0.00","records":27,"repeats":0}'
drilled 100000 '{"approved":14045,"declined":68906,"gateway":"-31876.43","held":"31346.48","lines":115496,"network":"107324.26","notices":19789,"programme":"-106794.31","records":104683,"repeats":12358}'

# ask LINE: the program that replays takes it, and $told is its texts, up to the fault of the bad line after it.
ask() {
    local text
    printf '%s\n[]\n' "$1" >&"$lines"
    told=
    while IFS= read -r text <&"$texts" && [ "$text" != '{"fault":"JSON","reply":"form"}' ]; do
        told+=$text$'\n'
    done
    given=$((given + 1))
    printf '%s' "$told" >>"$room/all"
}

# decided: counts the decision that the last line got, if it got one.
decided() {
    case $told in
    *'"reply":"approved"'*) approved=$((approved + 1)) ;;
    *'"reply":"declined"'*) declined=$((declined + 1)) ;;
    esac
}

# set_up: the lines before the first event.
set_up() {
    local digit
    ask '{"type":"product","token":"x1","product":"d","currency":"USD","funding":"GATEWAY"}'
    ask '{"type":"set","token":"x2","set":"s","product":"d","currency":"USD","connection":true,"max":"50.00","day_limit":"200.00"}'
    ask '{"type":"control","token":"x3","control":"v","currency":"USD","window":"DAY","amount_limit":"500.00"}'
    for digit in {0..9}; do
        ask "{\"type\":\"user\",\"token\":\"x$((4 + digit))\",\"user\":\"u$digit\"}"
    done
    for digit in {0..9}; do
        ask "{\"type\":\"card\",\"token\":\"x$((14 + digit))\",\"card\":\"k$digit\",\"user\":\"u$digit\",\"product\":\"d\"}"
    done
}

# own_event NUMBER Y: the event of this number, up to its stamp.
own_event() {
    local amount target=e$((1 + $2 / 8 % $1)) fields="\"token\":\"e$1\",\"currency\":\"USD\""
    printf -v amount '%d.%02d' $(((1 + $2 % 5000) / 100)) $(((1 + $2 % 5000) % 100))
    fields+=",\"amount\":\"$amount\""
    case $(($2 % 8)) in
    4 | 5) event="{\"type\":\"clearing\",$fields,\"txn\":\"$target\",\"final\":true" ;;
    6) event="{\"type\":\"reversal\",$fields,\"txn\":\"$target\"" ;;
    *) event="{\"type\":\"authorization\",$fields,\"card\":\"k$(($2 / 8 % 10))\",\"mcc\":\"5411\",\"mid\":\"m$(($2 % 7))\"" ;;
    esac
}

# answer Y STAMP: the gateway answers the call that the last line opened, if it opened one.
answer() {
    local outcome=FUNDED
    [[ $told =~ \"number\":([0-9]+) ]] || return 0
    case $(($1 % 11)) in
    0) outcome=CONNECTION ;;
    1) outcome=REFUSED ;;
    esac
    ask "{\"type\":\"answer\",\"call\":${BASH_REMATCH[1]},\"outcome\":\"$outcome\",\"at\":$2}"
    decided
}

# events NUMBER: NUMBER events, each answered if it asks the gateway.
events() {
    local i x=1 y
    for ((i = 1; i <= $1; i++)); do
        x=$(((x * 1103515245 + 12345) % 2147483648))
        y=$((x / 65536))
        if [ $((y % 8)) = 7 ] && [ "$i" != 1 ]; then
            ask "$event,\"at\":$((60000 * i))}"
            repeats=$((repeats + 1))
        else
            own_event "$i" "$y"
            ask "$event,\"at\":$((60000 * i))}"
            decided
            answer "$y" $((60000 * i))
        fi
    done
}

# balance ACCOUNT: what the report in $room/out has for it.
balance() {
    sed -n "s/^{\"account\":\"$1\",\"balance\":\"\([^\"]*\)\".*/\1/p" "$room/out" | grep . || echo 0.00
}

given=0 approved=0 declined=0 repeats=0
issue format "$room/device" 1000000 0
ended 'formatting' 0 ''
mkfifo "$room/lines" "$room/texts"
"$issuer" replay "$room/device" <"$room/lines" >"$room/texts" 2>"$room/said" &
child=$!
exec {lines}>"$room/lines" {texts}<"$room/texts"
set_up
events 300
exec {lines}>&- {texts}<&-
status=0
wait "$child" || status=$?
child=
ended 'replaying events' 0 ''
issue balances "$room/device" >"$room/out"
ended 'a report of the events' 0 ''
held=$(sed -n 's/.*"held":"\([^"]*\)".*/\1/p' "$room/out" | awk '{ cents += $1 * 100 } END { printf "%.2f", cents / 100 }')
records=$(sed -n 's/.*"records":\([0-9]*\)}/\1/p' "$room/out")
drilled 300 "$(
    printf '{"approved":%d,"declined":%d,"gateway":"%s","held":"%s",' "$approved" "$declined" "$(balance gateway)" "$held"
    printf '"lines":%d,"network":"%s","notices":%d,' "$given" "$(balance network)" "$(grep -c '"notice":' "$room/all")"
    printf '"programme":"%s","records":%d,"repeats":%d}' "$(balance programme)" "$records" "$repeats"
)"
