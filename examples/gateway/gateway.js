#!/usr/bin/env node
// A gateway to start from: gateway.js PORT STORE CURRENCY=LIMIT..
//
// It funds a purchase of at most LIMIT, its increments included, in each currency that is named, and refuses every other one.
// It answers as docs/GATEWAY.md says: a token has one text, and one answer until it is voided. After that it is refused. A notice
// acts once.
//
// STORE is a file that grows, but for a line that a kill cut short: the next start drops that. It has a line for each token and
// each notice, `funded`, `refused` or `noted` and then the text that came. A line is on the disk before its answer goes out, so
// the gateway may be killed at any moment. One store belongs to one device, because the notices of two devices have the same
// numbers. gateway.py keeps the same store.
"use strict";
const fs = require("node:fs");
const http = require("node:http");
const path = require("node:path");

const DECIMALS = { USD: 2, EUR: 2, GBP: 2, CAD: 2, AUD: 2, JPY: 0, KWD: 3 };
const ASKS = ["pgfs.authorization", "pgfs.authorization.incremental"];
// What a void shares with the request whose token it has.
const SHARED = ["amount", "currency", "txn", "user"];
const LONGEST_TEXT = 16384;

class BadMessage extends Error {}

// Counts the minor units of an amount, which has exactly the decimals of its currency.
function minorUnits(amount, currency) {
    const decimals = Object.hasOwn(DECIMALS, currency) ? DECIMALS[currency] : NaN;
    const form = decimals ? new RegExp(`^\\d+\\.\\d{${decimals}}$`) : /^\d+$/;
    if (Number.isNaN(decimals) || typeof amount !== "string" || !form.test(amount)) throw new BadMessage(`no amount of ${currency}: ${amount}`);
    return BigInt(amount.replace(".", ""));
}

// What was answered: the requests and voids by their tokens, and the notices by their numbers.
class Store {
    constructor(file) {
        this.requests = new Map();
        this.funded = new Set();
        this.voids = new Set();
        this.notices = new Map();
        this.spent = new Map();
        this.handle = fs.openSync(file, "a+");
        const content = fs.readFileSync(this.handle, "latin1");
        // A line that a kill cut short was never answered.
        const whole = content.slice(0, content.lastIndexOf("\n") + 1);
        fs.ftruncateSync(this.handle, whole.length);
        for (const line of whole.split("\n").slice(0, -1)) {
            const blank = line.indexOf(" ");
            this.take(line.slice(0, blank), line.slice(blank + 1));
        }
        // What was taken lasts, and so does the file's name in its folder.
        fs.fsyncSync(this.handle);
        const folder = fs.openSync(path.dirname(path.resolve(file)), "r");
        fs.fsyncSync(folder);
        fs.closeSync(folder);
    }

    // Writes a line, and takes it once it lasts. If that fails, the gateway ends, since only its next start can tell what does.
    keep(word, text) {
        fs.appendFileSync(this.handle, `${word} ${text}\n`);
        fs.fsyncSync(this.handle);
        this.take(word, text);
    }

    take(word, text) {
        const message = JSON.parse(text);
        if (word === "noted") {
            this.notices.set(message.notice, text);
            if (message.method === "x.void") this.void(message);
        } else {
            this.requests.set(message.token, text);
            if (word === "funded") {
                this.funded.add(message.token);
                this.spend(message, 1n);
            }
        }
    }

    void(notice) {
        if (this.funded.has(notice.token) && !this.voids.has(notice.token)) this.spend(notice, -1n);
        this.voids.add(notice.token);
    }

    spend({ txn, amount, currency }, sign) {
        this.spent.set(txn, this.spentOn(txn) + sign * minorUnits(amount, currency));
    }

    spentOn(txn) {
        return this.spent.get(txn) ?? 0n;
    }
}

// Answers one text after another, by what is in its store.
class Gateway {
    constructor(store, limits) {
        this.store = store;
        this.limits = limits;
    }

    // Returns the status and the body that answer this text.
    answer(text) {
        const message = messageOf(text);
        const amount = minorUnits(message.amount, message.currency);
        if (!ASKS.includes(message.method)) return { status: this.actsOn(message, text) ? 200 : 409, body: {} };
        if (!this.funds(message, text, amount)) return { status: 402, body: {} };
        return { status: 200, body: { amount: message.amount, token: message.token } };
    }

    funds({ token, txn, currency }, text, amount) {
        const known = this.store.requests.get(token);
        if (known !== undefined && known !== text) return this.contradicts(`token ${token}`);
        if (this.store.voids.has(token)) return false;
        if (known === undefined) {
            const isWithin = this.store.spentOn(txn) + amount <= (this.limits.get(currency) ?? 0n);
            this.store.keep(isWithin ? "funded" : "refused", text);
        }
        return this.store.funded.has(token);
    }

    // Whether this notice is acknowledged: it is new, or known with this text.
    actsOn(notice, text) {
        const known = this.store.notices.get(notice.notice);
        // What isn't an amount is never kept.
        minorUnits(notice.gateway, notice.currency);
        if (known === undefined && this.fitsItsRequest(notice)) {
            this.store.keep("noted", text);
            return true;
        }
        return known === text || this.contradicts(`notice ${notice.notice}`);
    }

    // Says that this came with another text than is known, as it does from an old copy of a device: somebody has to look.
    contradicts(what) {
        process.stderr.write(`${what} came with another text\n`);
        return false;
    }

    fitsItsRequest(notice) {
        const text = this.store.requests.get(notice.token);
        if (notice.method !== "x.void" || text === undefined) return true;
        const request = JSON.parse(text);
        return SHARED.every((name) => request[name] === notice[name]);
    }
}

// Reads a text as the issuer writes it: one object in printable ASCII, so that it is one line of the store.
function messageOf(text) {
    if (!/^[ -~]+$/.test(text)) throw new BadMessage("no text of an issuer");
    let message;
    try {
        message = JSON.parse(text);
    } catch {
        throw new BadMessage("no JSON");
    }
    const { method, txn, notice, token } = message ?? {};
    const isRequest = ASKS.includes(method);
    const isNamed = typeof method === "string" && typeof txn === "string" && (isRequest || Number.isInteger(notice));
    const hasToken = typeof token === "string" || (!isRequest && method !== "x.void");
    if (!isNamed || !hasToken) throw new BadMessage("a member is missing");
    return message;
}

function answerTo(gateway, request, text) {
    try {
        if (request.method !== "POST" || request.url !== "/jit") throw new BadMessage("no message");
        return gateway.answer(text);
    } catch (error) {
        if (error instanceof BadMessage) return { status: 400, body: {} };
        throw error;
    }
}

function stop(why) {
    process.stderr.write(`gateway.js: ${why}\n`);
    process.exit(1);
}

// Returns the limit of each currency that the words name.
function limitsOf(words) {
    try {
        const pairs = words.map((word) => word.split("="));
        return new Map(pairs.map(([currency, amount]) => [currency, minorUnits(amount, currency)]));
    } catch (error) {
        return stop(error.message);
    }
}

function main([port, file, ...limits]) {
    if (!/^\d{1,5}$/.test(port) || port > 65535 || !file) stop("usage: gateway.js PORT STORE CURRENCY=LIMIT..");
    const limitOf = limitsOf(limits);
    let gateway;
    const server = http.createServer((request, response) => {
        let text = "";
        request.setEncoding("latin1");
        request.on("data", (piece) => {
            text += piece;
            if (text.length > LONGEST_TEXT) request.destroy();
        });
        request.on("end", () => {
            const { status, body } = answerTo(gateway, request, text);
            const answer = JSON.stringify(body);
            response.writeHead(status, { "Content-Type": "application/json", "Content-Length": answer.length, Connection: "close" });
            response.end(answer);
        });
    });
    server.requestTimeout = 10000;
    const fails = (error) => stop(`port ${port}, store ${file}: ${error.message}`);
    server.on("error", fails);
    // The port comes first: whoever has it alone writes to the store.
    server.listen({ port: Number(port), host: "127.0.0.1", backlog: 1024 }, () => {
        try {
            gateway = new Gateway(new Store(file), limitOf);
        } catch (error) {
            fails(error);
        }
    });
}

main(process.argv.slice(2));
