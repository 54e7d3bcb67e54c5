#!/usr/bin/env bash
# Thousands of names, events, calls, notices, purchases and holds: each line is told what it would be told of a few. So it is if the
# tokens are those for which a look-up takes longest.
. "$(dirname "$0")/../program.sh"

# What each case's program in awk writes lines and texts with. The lines go to one file, and what they are told, worked out apart
# from the program, to another.
words='
function line(type, rest) { printf "{\"type\":\"%s\"%s}\n", type, rest >lines }
function event(type, token, rest) { line(type, sprintf(",\"token\":\"%s\",%s", token, rest)) }
function user(name) { event("user", "u-" name, "\"user\":\"" name "\""); done("u-" name) }
function card(name, holder, of) {
    event("card", "c-" name, sprintf("\"card\":\"%s\",\"user\":\"%s\",\"product\":\"%s\"", name, holder, of))
    done("c-" name)
}
function product(name, funding, times) {
    event("product", "p-" name, sprintf("\"product\":\"%s\",\"currency\":\"USD\",\"funding\":\"%s\",%s", name, funding, times))
    done("p-" name)
}
function load(token, name, amount) { event("load", token, sprintf("\"user\":\"%s\",\"currency\":\"USD\",\"amount\":\"%s\"", name, amount)) }
function purchase(token, payer, amount, at) {
    event("authorization", token, sprintf("\"card\":\"%s\",\"currency\":\"USD\",\"amount\":\"%s\",\"mcc\":\"5411\",\"mid\":\"m1\",\"at\":%d", payer, amount, at))
}
function later(type, token, txn, amount, more) {
    event(type, token, sprintf("\"txn\":\"%s\",\"currency\":\"USD\",\"amount\":\"%s\"%s", txn, amount, more))
}
function answer(call, outcome) { line("answer", sprintf(",\"call\":%d,\"outcome\":\"%s\"", call, outcome)) }
function ack(number, reply) {
    line("ack", ",\"notice\":" number)
    told(sprintf("{\"notice\":%d,\"reply\":\"%s\"}", number, reply))
}
function time(at) { line("time", sprintf(",\"at\":%d", at)) }
function told(text) { print text >texts }
function done(token) { told(sprintf("{\"event\":\"%s\",\"reply\":\"done\"}", token)) }
function approved(token) { told(sprintf("{\"event\":\"%s\",\"reply\":\"approved\"}", token)) }
function declined(token, reason) { told(sprintf("{\"event\":\"%s\",\"reason\":\"%s\",\"reply\":\"declined\"}", token, reason)) }
function call_token(call) { return sprintf("00000000-0000-8000-8000-%012x", call) }
function asked(call, token, txn, payer, amount, method) {
    told(sprintf("{\"amount\":\"%s\",\"card\":\"%s\",\"currency\":\"USD\",\"event\":\"%s\",\"mcc\":\"5411\",\"method\":\"%s\",\"mid\":\"m1\",\"number\":%d,\"token\":\"%s\",\"txn\":\"%s\",\"user\":\"u1\"}",
        amount, payer, token, method, call, call_token(call), txn))
}
function notice(method, txn, name, amount, gateway, call) {
    told(sprintf("{\"amount\":\"%s\",\"currency\":\"USD\",\"gateway\":\"%s\",\"method\":\"%s\",\"notice\":%d,%s\"txn\":\"%s\",\"user\":\"%s\"}",
        amount, gateway, method, ++notices, call ? "\"token\":\"" call_token(call) "\"," : "", txn, name))
}
# The numbers below 200 in another order.
function stirred(number) { return number * 119 % 200 }
'

# sized WHAT PROGRAM: the lines that this program writes are told the texts that it writes.
sized() {
    awk -v lines="$room/in" -v texts="$room/expected" "$words BEGIN { $2 }"
    issue dry <"$room/in" >"$room/out"
    ended "$1" 0 ''
    wrote "$1" "$room/expected"
}

sized 'two thousand names, each offered twice' '
    for (i = 0; i < 4000; i++) {
        name = "name-" int(i / 2)
        event("user", "t" i, "\"user\":\"" name "\"")
        if (i % 2 == 0) done("t" i); else declined("t" i, "EXISTS")
    }
    for (i = 0; i < 3000; i++) {
        event("move", "m" i, "\"user\":\"name-" i "\",\"to\":\"SUSPENDED\"")
        if (i < 2000) done("m" i); else declined("m" i, "USER_UNKNOWN")
    }
'

sized 'twenty thousand events, each of which comes again, and then with another user' '
    user("u1")
    for (i = 0; i < 20000; i++) { load("event-" i, "u1", "5.00"); done("event-" i) }
    for (i = 0; i < 20000; i++) { load("event-" i, "u1", "5.00"); done("event-" i) }
    for (i = 0; i < 20000; i++) {
        load("event-" i, "nobody", "5.00")
        told(sprintf("{\"event\":\"event-%d\",\"record\":%d,\"reply\":\"conflict\"}", i, i + 2))
    }
'

# Each call has a deadline of its own, and they are asked in another order than that of their deadlines.
sized 'five thousand calls and notices' '
    user("u1")
    for (i = 0; i < 200; i++) { product("p" i, "GATEWAY", "\"timeout_ms\":" 1000 + 25 * stirred(i)); card("c" i, "u1", "p" i) }
    for (i = 0; i < 5000; i++) {
        at = int(i / 200)
        purchase("a" i, "c" i % 200, "0.10", at)
        asked(i + 1, "a" i, "a" i, "c" i % 200, "0.10", "pgfs.authorization")
        ends[at + 25 * stirred(i % 200)] = i
    }
    time(999); told("{\"reply\":\"idle\"}")
    for (i = 0; i < 5000; i++) {
        if (i % 2500 == 0) time(i + 3499)
        notice("x.void", "a" ends[i], "u1", "0.10", "0.00", ends[i] + 1)
        declined("a" ends[i], "GATEWAY_TIMEOUT")
        if (i % 2500 == 2499) told("{\"reply\":\"time\"}")
    }
    for (i = 1; i <= 5000; i++) { answer(i, "FUNDED"); told(sprintf("{\"call\":%d,\"reply\":\"late\",\"state\":\"TIMEOUT\"}", i)) }
    for (i = 1; i <= 5000; i++) if (i % 3 != 0) ack(i, "acked")
    for (i = 1; i <= 5000; i++) ack(i, i % 3 != 0 ? "already" : "acked")
    ack(5001, "unknown")
'

sized 'five thousand calls of one purchase' '
    user("u1"); product("g", "GATEWAY", "\"timeout_ms\":1000"); card("c1", "u1", "g")
    purchase("a", "c1", "1.00", 0); asked(1, "a", "a", "c1", "1.00", "pgfs.authorization")
    answer(1, "FUNDED"); approved("a")
    for (i = 2; i <= 5001; i++) {
        later("increment", "i" i, "a", "0.01", ""); asked(i, "i" i, "a", "c1", "0.01", "pgfs.authorization.incremental")
    }
    for (i = 3; i <= 5001; i += 3) { answer(i, "REFUSED"); declined("i" i, "GATEWAY_DECLINED") }
    later("reversal", "r", "a", "1.00", "")
    for (i = 2; i <= 5001; i++) if (i % 3 != 0) { notice("x.void", "a", "u1", "0.01", "0.00", i); declined("i" i, "REVERSED") }
    notice("pgfs.authorization.reversal", "a", "u1", "1.00", "1.00"); done("r")
'

sized 'ten thousand purchases' '
    user("u1"); product("g", "GATEWAY", "\"timeout_ms\":1000"); card("c1", "u1", "g")
    for (i = 1; i <= 10000; i++) {
        purchase("a" i, "c1", "0.10", 0); asked(i, "a" i, "a" i, "c1", "0.10", "pgfs.authorization")
        answer(i, "FUNDED"); approved("a" i)
        later("reversal", "r" i, "a" i, "0.03", ""); notice("pgfs.authorization.reversal", "a" i, "u1", "0.03", "0.03"); done("r" i)
        later("clearing", "k" i, "a" i, "0.05", ",\"final\":true"); notice("pgfs.authorization.capture", "a" i, "u1", "0.05", "0.02"); done("k" i)
        later("refund", "b" i, "a" i, "0.01", ""); notice("pgfs.refund", "a" i, "u1", "0.01", "0.01"); done("b" i)
    }
    later("reversal", "late", "a10000", "0.01", ""); declined("late", "TXN_CLOSED")
    later("refund", "over", "a10000", "0.05", ""); declined("over", "REFUND_OVER")
    later("refund", "all", "a10000", "0.04", ""); notice("pgfs.refund", "a10000", "u1", "0.04", "0.04"); done("all")
'

# Each expires at a time of its own, and they are held in another order than that of their expiries.
sized 'ten thousand holds in the order of their expiries' '
    user("u1")
    for (i = 0; i < 200; i++) { product("p" i, "GATEWAY", "\"hold_ms\":" 86400000 + 50 * stirred(i)); card("c" i, "u1", "p" i) }
    for (i = 0; i < 10000; i++) {
        at = int(i / 200)
        purchase("a" i, "c" i % 200, "0.06", at); asked(i + 1, "a" i, "a" i, "c" i % 200, "0.06", "pgfs.authorization")
        answer(i + 1, "FUNDED"); approved("a" i)
        ends[at + 50 * stirred(i % 200)] = i
    }
    time(86399999); told("{\"reply\":\"idle\"}")
    for (i = 0; i < 10000; i++) {
        if (i % 5000 == 0) time(86404999 + i)
        notice("x.expiry", "a" ends[i], "u1", "0.06", "0.06")
        if (i % 5000 == 4999) told("{\"reply\":\"time\"}")
    }
'

# Each user has as much as a thousand purchases hold; half of them expire.
sized 'ten thousand holds of ten users' '
    product("short", "ACCOUNT", "\"hold_ms\":86400000"); product("long", "ACCOUNT", "\"hold_ms\":86400001")
    for (i = 0; i < 10; i++) {
        user("u" i); card("s" i, "u" i, "short"); card("l" i, "u" i, "long")
        load("load" i, "u" i, "60.00"); done("load" i)
    }
    for (i = 0; i < 10000; i++) { purchase("a" i, (i % 20 < 10 ? "s" : "l") i % 10, "0.06", 0); approved("a" i) }
    for (i = 0; i < 10; i++) { purchase("full" i, "s" i, "0.01", 0); declined("full" i, "INSUFFICIENT_FUNDS") }
    time(86400000); told("{\"reply\":\"time\"}")
    for (i = 0; i < 10; i++) {
        purchase("over" i, "s" i, "30.01", 86400000); declined("over" i, "INSUFFICIENT_FUNDS")
        purchase("half" i, "s" i, "30.00", 86400000); approved("half" i)
    }
'

# All of these tokens point to one group of the index of names (bench/crowd.c).
if command -v gcc >/dev/null; then
    gcc -O2 -o "$room/crowd" bench/crowd.c
    "$room/crowd" 2000 >"$room/names"
    sized 'two thousand purchases whose tokens are the worst for a look-up, each of which comes again and is cleared' '
        while ((getline token <"'"$room/names"'") > 0) tokens[count++] = token
        user("u1"); product("p", "ACCOUNT", "\"hold_ms\":86400000"); card("c1", "u1", "p")
        load("l", "u1", "20.00"); done("l")
        for (i = 0; i < 4000; i++) { purchase(tokens[i % 2000], "c1", "0.01", 0); approved(tokens[i % 2000]) }
        for (i = 0; i < 2000; i++) { later("clearing", "k" i, tokens[i], "0.01", ""); done("k" i) }
        later("clearing", "k", "00000000", "0.01", ""); declined("k", "TXN_UNKNOWN")
    '
fi
