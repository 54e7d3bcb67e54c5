# Lines of all kinds, `count` of them: for `mixed` of inputs.sh.
function event(type, token, rest) {
    printf "{\"type\":\"%s\",\"token\":\"%s\",%s}\n", type, token, rest
}

function purchase(token, card, amount, at) {
    event("authorization", token, sprintf("\"card\":\"%s\",\"currency\":\"USD\",\"amount\":\"%s\",\"mcc\":\"5411\",\"mid\":\"m1\",\"at\":%d", card, amount, at))
}

function asked(token, amount, at) {
    calls++
    purchase(token, "c2", amount, at)
}

function outcome(what, at) {
    printf "{\"type\":\"answer\",\"call\":%d,\"outcome\":\"%s\",\"at\":%d}\n", calls, what, at
}

function later(type, token, txn, amount, at) {
    event(type, token, sprintf("\"txn\":\"%s\",\"currency\":\"USD\",\"amount\":\"%s\",\"at\":%d", txn, amount, at))
}

function ack(i) {
    printf "{\"type\":\"ack\",\"notice\":%d}\n", i % 40 < 20 ? i / 10 + 1 : i / 3 + 1
}

function settings() {
    event("product", "p1", "\"product\":\"g\",\"currency\":\"USD\",\"funding\":\"GATEWAY\"")
    event("product", "p2", "\"product\":\"h\",\"currency\":\"USD\",\"funding\":\"ACCOUNT\"")
    event("user", "u1", "\"user\":\"u1\"")
    event("user", "u2", "\"user\":\"u2\"")
    event("card", "c1", "\"card\":\"c1\",\"user\":\"u1\"")
    event("card", "c2", "\"card\":\"c2\",\"user\":\"u2\",\"product\":\"g\"")
    event("card", "c3", "\"card\":\"c3\",\"user\":\"u1\",\"product\":\"h\"")
    event("group", "g1", "\"group\":\"food\",\"mccs\":[\"5411\",\"5812\"]")
    event("control", "v1", "\"control\":\"v1\",\"currency\":\"USD\",\"window\":\"DAY\",\"amount_limit\":\"1000000.00\"")
    event("control", "v2", "\"control\":\"v2\",\"currency\":\"USD\",\"window\":\"WEEK\",\"usage_limit\":1000000,\"group\":\"food\",\"user\":\"u1\"")
    event("set", "s1", "\"set\":\"s1\",\"product\":\"g\",\"currency\":\"USD\",\"connection\":true,\"max\":\"10.00\",\"day_limit\":\"40.00\"")
}

function own(i, kind, at) {
    if (kind == 0) event("load", "l" i, "\"user\":\"u1\",\"currency\":\"USD\",\"amount\":\"5.00\"")
    if (kind == 1) purchase("a" i, "c1", "1.00", at)
    if (kind == 2) later("increment", "i" i, "a" (i - 1), "0.50", at)
    if (kind == 3) later("reversal", "r" i, "a" (i - 2), "0.25", at)
    if (kind == 4) later("clearing", "k" i, "a" (i - 3), "1.00", at)
    if (kind == 5) later("refund", "f" i, "a" (i - 4), "0.40", at)
}

function by_gateway(i, kind, at) {
    if (kind == 6) asked("a" i, "2.00", at)
    if (kind == 7) outcome("FUNDED", at - 59000)
    if (kind == 8) later("clearing", "k" i, "a" (i - 2), "1.50", at)
    if (kind == 9) asked("a" i, "1.00", at)
    if (kind == 10) outcome("REFUSED", at - 59000)
    if (kind == 11) asked("a" i, "1.00", at)
    if (kind == 12) outcome("CONNECTION", at - 59000)
    if (kind == 13) asked("a" i, "1.00", at)
}

# A repeat, a conflict, and lines that differ from round to round.
function odd(i, kind, at) {
    if (kind == 14) purchase("a" (i - 13), "c1", "1.00", at)
    if (kind == 15) purchase("a" (i - 14), "c1", "9.00", at)
    if (kind == 16) event("move", "m" i, sprintf("\"card\":\"c3\",\"to\":\"%s\"", i % 40 < 20 ? "SUSPENDED" : "ACTIVE"))
    if (kind == 17 && i % 40 < 20) later("reversal", "r" i, "a" (i - 11), "0.25", at)
    if (kind == 17 && i % 40 >= 20) later("refund", "f" i, "a" (i - 11), "0.75", at)
    if (kind == 18) ack(i)
    if (kind == 19) event("switch", "w" i, "\"product\":\"h\",\"on\":" (i % 40 < 20 ? "true" : "1"))
}

BEGIN {
    settings()
    rounds = int((count - 12) / 21)
    for (i = 0; i < 20 * rounds; i++) {
        own(i, i % 20, 60000 * i)
        by_gateway(i, i % 20, 60000 * i)
        odd(i, i % 20, 60000 * i)
    }
    printf "{\"type\":\"time\",\"at\":%d}\n", 60000 * i + 604800000
    for (i = 18; i < 20 * rounds; i += 20) ack(i)
    for (i = 12 + 21 * rounds; i < count; i++) event("user", "u1", "\"user\":\"u1\"")
}
