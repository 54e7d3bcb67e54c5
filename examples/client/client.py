#!/usr/bin/env python3
"""Posts each line of standard input as an event, in their order, and writes the response to each: client.py [URL].

To send an event again is safe, since it acts once. So the same bytes are sent until a response decides them.
It says on standard error if attempt after attempt gets no response, and goes on. Ends with 1 if some line wasn't taken, and says
why. Blank lines are ignored.
"""
import json
import sys
import time
from http.client import HTTPConnection, HTTPException, HTTPSConnection
from urllib.parse import urlsplit

PATIENCE = 75  # seconds for a response: more than any product's time to answer
FAILURES = 6  # attempts without a response after which it says so: some one and a half seconds, if nobody listens
NOT_NOW = (408, 429)  # what a proxy says to a request that may come again
CONNECTIONS = {"http": HTTPConnection, "https": HTTPSConnection}


def post(url, line):
    """Returns the status and the body of the response to one attempt. Raises what failed if there was no whole one."""
    connection = CONNECTIONS[url.scheme](url.hostname, url.port, timeout=PATIENCE)
    try:
        connection.request("POST", url.path, line)
        response = connection.getresponse()
        return response.status, response.read()
    finally:
        connection.close()


def reply_of(body):
    """Returns the issuer's reply, or None if the body isn't the issuer's."""
    try:
        return json.loads(body)["reply"]
    except (KeyError, TypeError, ValueError):
        return None


def decides(status, body):
    """Whether there is nothing to gain by sending the same bytes again: 507 says that the device is full."""
    if status == 200:
        return reply_of(body) != "pending"
    return status == 507 or 400 <= status < 500 and status not in NOT_NOW


def complain(url, failure):
    why = "nobody listens" if isinstance(failure, ConnectionRefusedError) else f"no response: {failure}"
    sys.stderr.write(f"client.py: {url.geturl()}: {why}, and it tries on\n")


def posted(url, line):
    """Sends the line until a response decides it, and returns that response."""
    pause, failures = 0.05, 0
    while True:
        try:
            response = post(url, line)
            if decides(*response):
                return response
            failures = 0
        except (OSError, HTTPException) as failure:
            failures += 1
            if failures == FAILURES:
                complain(url, failure)
        time.sleep(pause)
        pause = min(2 * pause, 2)


def given_url(text="http://127.0.0.1:8080/events"):
    """Returns the parts of a URL that can be posted to."""
    try:
        url = urlsplit(text)
        if url.scheme in CONNECTIONS and url.hostname and url.port != 0:
            return url
    except ValueError:
        pass
    sys.exit(f"client.py: no URL of http or https: {text}")


def main(words):
    url = given_url(*words[:1])
    is_taken = True
    for line in filter(None, map(bytes.strip, sys.stdin.buffer)):
        status, body = posted(url, line)
        if status == 200 and reply_of(body):
            sys.stdout.buffer.write(body)
            sys.stdout.flush()
        else:
            is_taken = False
            sys.stderr.write(f"{status}: {body.decode(errors='replace').strip()}\n")
    sys.exit(not is_taken)


main(sys.argv[1:])
