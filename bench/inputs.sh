# The inputs of the benchmark, and of the checks of long inputs: each function writes COUNT lines.

# purchases COUNT: an input of COUNT lines.
purchases() {
    awk -v count="$1" 'BEGIN {
        print "{\"type\":\"user\",\"token\":\"u\",\"user\":\"u1\"}"
        print "{\"type\":\"card\",\"token\":\"c\",\"card\":\"c1\",\"user\":\"u1\"}"
        for (i = 0; i < count - 2; i++) {
            if (i % 10 == 0) {
                printf "{\"type\":\"load\",\"token\":\"l%d\",\"user\":\"u1\",\"currency\":\"USD\",\"amount\":\"1.00\"}\n", i
            } else {
                printf "{\"type\":\"authorization\",\"token\":\"a%d\",\"card\":\"c1\",\"currency\":\"USD\",\"amount\":\"0.01\",\"mcc\":\"5411\",\"mid\":\"m1\"}\n", i
            }
        }
    }'
}

# crowded COUNT: purchases whose tokens are as bad for a look-up as names can be (bench/crowd.c). Those of 20,000 are found within a minute.
crowded() {
    if ! [ -s "$room/names$1" ]; then
        gcc -O2 -Wall -o "$room/crowd" bench/crowd.c
        "$room/crowd" "$1" >"$room/names$1"
    fi
    purchases "$1" | awk 'NR == FNR { names[NR] = $1; next } { sub(/"token":"[^"]*"/, "\"token\":\"" names[FNR] "\""); print }' "$room/names$1" -
}

# controls NUMBER COUNT: COUNT lines, of which the first are a user, a card and NUMBER controls, and the rest purchases that each of
# seven in ten controls counts: over a day, a week, a month or for good in turn, three in ten for one category alone. None declines.
controls() {
    awk -v number="$1" 'BEGIN {
        split("DAY WEEK MONTH LIFETIME", windows, " ")
        for (i = 0; i < number; i++) {
            scope = i % 10 < 7 ? "" : ",\"mcc\":\"5812\""
            printf "{\"type\":\"control\",\"token\":\"v%d\",\"control\":\"v%d\",\"currency\":\"USD\",\"window\":\"%s\",\"amount_limit\":\"10000000000.00\"%s}\n",
                i, i, windows[i % 4 + 1], scope
        }
    }' >"$room/controls"
    purchases $(($2 - $1)) >"$room/purchases"
    head -n 2 "$room/purchases"
    cat "$room/controls"
    tail -n +3 "$room/purchases"
}

controls10() {
    controls 10 "$1"
}

controls256() {
    controls 256 "$1"
}

# again COUNT: purchases of half as many lines, twice.
again() {
    purchases $(($1 / 2))
    purchases $(($1 / 2))
}

# repeats COUNT: one line, COUNT times.
repeats() {
    yes '{"type":"user","token":"u","user":"u1"}' | head -n "$1" || true
}

# gateway COUNT: the first three lines are a product that a gateway funds, a user and a card. Then purchases of it, each with its
# answer: of ten seven are funded, and one each is refused, isn't reached, and isn't answered in time.
gateway() {
    awk -v count="$1" 'BEGIN {
        print "{\"type\":\"product\",\"token\":\"p\",\"product\":\"g\",\"currency\":\"USD\",\"funding\":\"GATEWAY\"}"
        print "{\"type\":\"user\",\"token\":\"u\",\"user\":\"u1\"}"
        print "{\"type\":\"card\",\"token\":\"c\",\"card\":\"c1\",\"user\":\"u1\",\"product\":\"g\"}"
        split("FUNDED FUNDED FUNDED REFUSED FUNDED FUNDED CONNECTION FUNDED FUNDED", outcomes, " ")
        for (i = 0; i < count - 3; i++) {
            n = int(i / 2)
            if (i % 2 == 0) {
                printf "{\"type\":\"authorization\",\"token\":\"a%d\",\"card\":\"c1\",\"currency\":\"USD\",\"amount\":\"1.00\",\"mcc\":\"5411\",\"mid\":\"m1\",\"at\":%d}\n", n, n * 5000
            } else if (n % 10 == 9) {
                printf "{\"type\":\"time\",\"at\":%d}\n", n * 5000 + 3000
            } else {
                printf "{\"type\":\"answer\",\"call\":%d,\"outcome\":\"%s\",\"at\":%d}\n", n + 1, outcomes[n % 10 + 1], n * 5000 + 1000
            }
        }
    }'
}

# mixed COUNT: lines of all kinds, with repeats, conflicts and faults, a minute apart; at the end a time by which all is due, and each
# acknowledgement once more.
mixed() {
    awk -v count="$1" -f bench/mixed.awk
}

# long_names COUNT: lines that repeat names of 36 letters: a product that a gateway funds, a user, and a card that is offered again and
# again. Of each 24 lines one is a purchase, one a time by which its call is due, and one the acknowledgement of the notice of that. So a
# record is long and adds little to an image.
long_names() {
    awk -v count="$1" '
    function name(letter,   text) { text = sprintf("%36s", ""); gsub(/ /, letter, text); return text }
    function event(type, token, rest) { printf "{\"type\":\"%s\",\"token\":\"%s\",%s}\n", type, token, rest }
    function card(token) { event("card", token, sprintf("\"card\":\"%s\",\"user\":\"%s\",\"product\":\"%s\"", name("c"), name("u"), name("p"))) }
    function purchase(token, at) {
        event("authorization", token, sprintf("\"card\":\"%s\",\"currency\":\"USD\",\"amount\":\"1.00\",\"mcc\":\"5411\",\"mid\":\"%s\",\"at\":%d", name("c"), name("m"), at))
    }
    BEGIN {
        event("product", "p", sprintf("\"product\":\"%s\",\"currency\":\"USD\",\"funding\":\"GATEWAY\"", name("p")))
        event("user", "u", sprintf("\"user\":\"%s\"", name("u")))
        card("c")
        for (i = 0; i < count - 3; i++) {
            n = int(i / 24)
            kind = i % 24
            if (kind < 21) card("c" i)
            if (kind == 21) purchase("a" n, n * 10000)
            if (kind == 22) printf "{\"type\":\"time\",\"at\":%d}\n", n * 10000 + 5000
            if (kind == 23) printf "{\"type\":\"ack\",\"notice\":%d}\n", n + 1
        }
    }'
}

# kept NAME COUNT: the first COUNT lines of an input of 20,000 that is kept here.
kept() {
    gzip -dc "bench/$1.jsonl.gz" | sed -n "1,$2p"
}

# mix COUNT: lines of all kinds but switches by four hundred users, a part of them bad.
mix() {
    kept mix "$1"
}

# simple COUNT: purchases of two hundred users, under one control, with their clearings.
simple() {
    kept simple "$1"
}

# drill COUNT: the lines that a drill makes, with the answers of its gateway.
drill() {
    kept drill "$1"
}
