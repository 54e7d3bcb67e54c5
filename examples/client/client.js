#!/usr/bin/env node
// Posts each line of standard input as an event, in their order, and writes the response to each: client.js [URL].
//
// To send an event again is safe, since it acts once. So the same bytes are sent until a response decides them.
// It says on standard error if attempt after attempt gets no response, and goes on. Ends with 1 if some line wasn't taken, and says
// why. Blank lines are ignored.
"use strict";
const { createInterface } = require("node:readline");
const { setTimeout: sleep } = require("node:timers/promises");

const PATIENCE = 75000; // milliseconds for a response: more than any product's time to answer
const FAILURES = 6; // attempts without a response after which it says so: some one and a half seconds, if nobody listens
const NOT_NOW = [408, 429]; // what a proxy says to a request that may come again

// Returns the status and the body of the response to one attempt, or what failed if there was no whole one.
async function post(url, line) {
    try {
        const response = await fetch(url, { method: "POST", body: line, signal: AbortSignal.timeout(PATIENCE) });
        return { status: response.status, body: await response.text() };
    } catch (error) {
        return { failure: error.cause ?? error };
    }
}

// Returns the issuer's reply, or undefined if the body isn't the issuer's.
function replyOf(body) {
    try {
        return JSON.parse(body)?.reply;
    } catch {
        return undefined;
    }
}

// Whether there is nothing to gain by sending the same bytes again: 507 says that the device is full.
function decides({ status, body }) {
    if (status === 200) return replyOf(body) !== "pending";
    return status === 507 || (status >= 400 && status < 500 && !NOT_NOW.includes(status));
}

function complain(url, failure) {
    const why = failure.code === "ECONNREFUSED" ? "nobody listens" : `no response: ${failure.message}`;
    process.stderr.write(`client.js: ${url}: ${why}, and it tries on\n`);
}

// Sends the line until a response decides it, and returns that response.
async function posted(url, line) {
    let failures = 0;
    for (let pause = 50; ; pause = Math.min(2 * pause, 2000)) {
        const response = await post(url, line);
        if (!response.failure && decides(response)) return response;
        failures = response.failure ? failures + 1 : 0;
        if (failures === FAILURES) complain(url, response.failure);
        await sleep(pause);
    }
}

// Whether this is a URL that can be posted to.
function isUrl(text) {
    try {
        return ["http:", "https:"].includes(new URL(text).protocol);
    } catch {
        return false;
    }
}

async function main(url = "http://127.0.0.1:8080/events") {
    if (!isUrl(url)) {
        process.stderr.write(`client.js: no URL of http or https: ${url}\n`);
        process.exit(1);
    }
    for await (const line of createInterface({ input: process.stdin })) {
        if (!line.trim()) continue;
        const { status, body } = await posted(url, line.trim());
        if (status === 200 && replyOf(body)) {
            process.stdout.write(body);
        } else {
            process.exitCode = 1;
            process.stderr.write(`${status}: ${body.trim()}\n`);
        }
    }
}

main(process.argv[2]);
