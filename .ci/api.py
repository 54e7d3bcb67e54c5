"""Compares the contracts for machines in api/ with the program.

usage: api.py cases | lines PROGRAM | serve PORT GATEWAYPORT | full PORT

`cases` is the table of api/cases.json. `lines` tells a dry run each line of the worked scripts, and compares what it calls bad with
what the schema does. `serve` posts lines to a program that serves, and is its gateway. `full` posts one to a program whose device
is full. If python3-jsonschema is installed, it judges each value too.
"""
import http.client
import json
import re
import subprocess
import sys
import threading
import time
from collections import Counter
from http.server import BaseHTTPRequestHandler, ThreadingHTTPServer
from pathlib import Path

sys.path.insert(0, "api")
sys.dont_write_bytecode = True
from validate import Validator  # noqa: E402

try:
    import jsonschema
except ImportError:
    jsonschema = None

SCRIPTS = Path("examples/scripts")
# Lines that the schema takes and the program refuses: JSON Schema calls these numbers integers, and the program doesn't.
NOT_WHOLE = re.compile(rb":\s*(?:-0|-?\d+\.0+|-?\d+(?:\.\d+)?[eE][+-]?\d+)\s*[,}]")
NOT_WHOLE_COUNT = 4
# The names that scripts have in common.
NAMED = re.compile(rb'"(token|txn|user|card|product|control|set|group)":"(?!default")')
# Lines with a number at the edges of its form, and one beyond.
EDGES = [
    (b'{"type":"product","token":"e1","product":"e","currency":"USD","funding":"ACCOUNT","timeout_ms":%d}', 1, 60000),
    (b'{"type":"product","token":"e2","product":"e","currency":"USD","funding":"ACCOUNT","hold_ms":%d}', 86400000, 2678400000),
    (b'{"type":"control","token":"e3","control":"e","currency":"USD","window":"DAY","usage_limit":%d}', 0, 1000000),
    (b'{"type":"answer","call":%d,"outcome":"FUNDED"}', 1, 4294967295),
    (b'{"type":"ack","notice":%d}', 1, 4294967295),
    (b'{"type":"user","at":%d,"token":"e4","user":"e"}', 0, 253370764799999),
    (b'{"type":"time","at":%d}', 0, 253370764799999),
]
# The kinds of message that the served lines make.
METHODS = {"pgfs.authorization", "pgfs.authorization.incremental", "pgfs.authorization.capture", "pgfs.refund", "x.standin"}
# A line that gets this text alone marks where the texts of the line before it end.
MARK = b'{"type":"ack","notice":"mark"}'
MARKED = b'{"fault":"FIELD","field":"notice","reply":"form"}'


class Contract:
    """A document, by its own validator and by python3-jsonschema, which have to agree."""

    def __init__(self, document):
        self.document = document
        self.own = Validator(document)
        self.others = {}

    def is_valid(self, schema, value):
        is_valid = self.own.is_valid(schema, value)
        if jsonschema and self.other(schema).is_valid(value) != is_valid:
            sys.exit(f"api/validate.py says {is_valid} of {value}, and python3-jsonschema says otherwise; by {schema}")
        return is_valid

    def other(self, schema):
        """The other validator for a schema, with the document's definitions beside it."""
        key = json.dumps(schema)
        if key not in self.others:
            beside = {name: self.document[name] for name in ("$defs", "components") if name in self.document}
            self.others[key] = jsonschema.Draft202012Validator({**beside, **schema})
        return self.others[key]


def references(value):
    """All references in a document."""
    if isinstance(value, dict):
        yield from ([value["$ref"]] if "$ref" in value else [])
    for inner in value.values() if isinstance(value, dict) else value if isinstance(value, list) else []:
        yield from references(inner)


def contract(name):
    """A document of api/, whose references all lead somewhere."""
    document = json.loads(Path("api", name).read_text())
    for reference in references(document):
        Validator(document).at(reference)
    if jsonschema:
        for schema in (document.get("$defs") or document["components"]["schemas"]).values():
            jsonschema.Draft202012Validator.check_schema(schema)
    return Contract(document)


def check_cases():
    for case in json.loads(Path("api/cases.json").read_text()):
        judge = Contract(case["schema"])
        for is_valid in (True, False):
            for value in case["valid" if is_valid else "invalid"]:
                if judge.is_valid(case["schema"], value) != is_valid:
                    sys.exit(f"api/validate.py: {value} by {case['schema']} isn't {is_valid}")
    # In ECMA-262 `$` is the end alone; python3-jsonschema goes by Python, where a line feed may follow.
    if Validator({}).is_valid({"pattern": "^(a$|b)$"}, "a\n"):
        sys.exit("api/validate.py: a pattern takes a line feed at the end of a text")
    try:
        Validator({}).is_valid({"format": "uuid"}, "a")
    except ValueError:
        return
    sys.exit("api/validate.py: it passes over a keyword that it doesn't know")


def told_lines(program, lines):
    """The texts that each line gets in a run of all of them."""
    told = subprocess.run([program, "dry"], input=b"\n".join(line + b"\n" + MARK for line in lines), capture_output=True, check=True)
    texts = iter(told.stdout.splitlines())
    for line in lines:
        own = [next(texts)]
        while (text := next(texts)) != MARKED:
            own.append(text)
        yield line, own


def is_line(judge, line):
    """Whether a line is valid; not if it is no JSON."""
    try:
        return judge.is_valid({"$ref": "#/$defs/Line"}, json.loads(line))
    except (ValueError, RecursionError):
        return False


def edge_lines():
    """Lines at the edges of forms that no script has."""
    for line, least, most in EDGES:
        yield from (line % number for number in (least - 1, least, most, most + 1))
    for length in (1, 36, 37):
        yield b'{"type":"user","token":"%s","user":"e"}' % (b"e" * length)
    for count in (1, 1000, 1001):
        codes = ",".join(f'"{code:04}"' for code in range(count))
        yield b'{"type":"group","token":"e5","group":"e","mccs":[%s]}' % codes.encode()


def check_lines(program):
    judge = contract("line.schema.json")
    inputs = [line for path in sorted(SCRIPTS.glob("*.jsonl")) for line in path.read_bytes().split(b"\n") if line.strip(b" \t\r")]
    inputs += edge_lines()
    counts = Counter()
    for line, texts in told_lines(program, inputs):
        fault = json.loads(texts[0]).get("fault")
        if fault in ("JSON", "LONG"):
            counts["aren't read, and aren't compared"] += 1
        elif is_line(judge, line) == (fault is None):
            counts["are valid, as they are read" if fault is None else "are not valid, as they have a bad field"] += 1
        elif fault == "FIELD" and NOT_WHOLE.search(line):
            counts["have a number that JSON Schema alone calls an integer"] += 1
        else:
            sys.exit(f"the program says {texts[0].decode()}, and api/line.schema.json otherwise: {line.decode()}")
        for text in texts:
            check_text(judge, "Text", text)
    if counts["have a number that JSON Schema alone calls an integer"] != NOT_WHOLE_COUNT:
        sys.exit(f"{NOT_WHOLE_COUNT} lines are to have a number that JSON Schema alone calls an integer: {dict(counts)}")
    for pattern, name in (("*.out", "Text"), ("*.balances", "BalanceLine")):
        for path in sorted(SCRIPTS.glob(pattern)):
            for text in path.read_bytes().splitlines():
                check_text(judge, name, text)
                counts[f"of {pattern} are valid"] += 1
    drilled = subprocess.run([program, "drill", "100"], capture_output=True, check=True).stdout
    check_text(judge, "DrillLine", drilled)
    for what, count in counts.items():
        print(f"{count} lines {what}")


def check_text(judge, name, text):
    if not judge.is_valid({"$ref": f"#/$defs/{name}"}, json.loads(text)):
        sys.exit(f"{name} of api/line.schema.json doesn't take {text.decode()}")


def content_schema(described):
    return described["content"]["application/json"]["schema"]


def gateway(judge, port, faults, methods):
    """A gateway that funds each request, keeps what its contract doesn't take, and counts what it was sent."""
    operation = judge.document["paths"]["/jit"]["post"]

    class Gateway(BaseHTTPRequestHandler):
        def do_POST(self):
            asked = json.loads(self.rfile.read(int(self.headers["Content-Length"])))
            funding = {name: asked[name] for name in ("token", "amount") if name in asked}
            if self.path != "/jit" or not judge.is_valid(content_schema(operation["requestBody"]), asked):
                faults.append(f"a message to the gateway isn't valid: {asked}")
            if "number" in asked and not judge.is_valid(content_schema(operation["responses"]["200"]), funding):
                faults.append(f"what funds isn't valid: {funding}")
            methods[asked["method"]] += 1
            told = json.dumps(funding).encode()
            self.send_response(200)
            self.send_header("Content-Length", str(len(told)))
            self.end_headers()
            self.wfile.write(told)

        def log_message(self, *_):
            pass

    server = ThreadingHTTPServer(("127.0.0.1", port), Gateway)
    threading.Thread(target=server.serve_forever, daemon=True).start()
    return server


def posted(port, path, body, headers):
    connection = http.client.HTTPConnection("127.0.0.1", port, timeout=60)
    connection.request("POST", path, body, headers)
    answer = connection.getresponse()
    return answer.status, answer.getheader("Content-Type"), answer.read()


def served_lines():
    """Lines of scripts with good and bad fields, and with each kind of message to the gateway; each script with names of its own."""
    # Scripts with controls of everybody come last, since they bind all that follows.
    kinds = "a_day_of gateway increments_of refund_of release_of switch_that purchase hostile first_bad settings".split()
    paths = [path for kind in kinds for path in sorted(SCRIPTS.glob(f"{kind}_*.jsonl"))]
    for number, path in enumerate(paths):
        own = NAMED.sub(rb'"\1":"s%d-' % number, path.read_bytes())
        yield from (line for line in own.split(b"\n") if line.strip(b" \t\r"))


class Client:
    """Posts to what serves, and compares each response with the contract."""

    def __init__(self, judge, port, faults):
        self.judge = judge
        self.port = int(port)
        self.faults = faults
        self.operation = judge.document["paths"]["/events"]["post"]
        self.counts = Counter()

    def post(self, body, path="/events", headers=None):
        status, kind, text = posted(self.port, path, body, headers or {})
        described = self.operation["responses"].get(str(status))
        if described is None or kind != "application/json" or not self.judge.is_valid(content_schema(described), json.loads(text)):
            self.faults.append(f"{status} {text.decode()} isn't as api/openapi.json says, of {body}")
            return
        self.counts[status] += 1
        fault = json.loads(text).get("fault")
        if fault in (None, "FIELD") and not NOT_WHOLE.search(body):
            is_valid = self.judge.is_valid(content_schema(self.operation["requestBody"]), json.loads(body))
            if is_valid != (fault is None):
                self.faults.append(f"{text.decode()} and api/openapi.json say otherwise of {body}")

    def end(self, *statuses):
        """Each response was valid, and each of these statuses came."""
        if self.faults:
            sys.exit("\n".join(self.faults))
        for status, count in sorted(self.counts.items()):
            print(f"{count} responses of status {status} are valid")
        if not set(statuses) <= self.counts.keys():
            sys.exit(f"not each status of {statuses} came")


def check_serve(port, gateway_port):
    judge, faults, methods = contract("openapi.json"), [], Counter()
    server = gateway(judge, int(gateway_port), faults, methods)
    client = Client(judge, port, faults)
    for line in served_lines():
        client.post(line)
    # Heads alone: a response to a head may come before a body is sent, and the connection then be reset.
    client.post(b"", path="/events?x=1")
    client.post(None, headers={"Transfer-Encoding": "chunked"})
    client.post(None, headers={"Content-Length": "16385"})
    # The last notices may still be on their way.
    for _ in range(300):
        if METHODS <= methods.keys():
            break
        time.sleep(0.1)
    server.shutdown()
    client.end(200, 400, 404, 409)
    print(f"Messages to the gateway that are valid: {dict(methods)}")
    if not METHODS <= methods.keys():
        sys.exit(f"not each kind of message of {METHODS} came")


def check_full(port):
    client = Client(contract("openapi.json"), port, [])
    client.post(b'{"type":"user","token":"t1","user":"u1"}')
    client.end(507)


def main(words):
    if not jsonschema:
        print("No python3-jsonschema here: api/validate.py alone is asked.")
    checks = {"cases": check_cases, "lines": check_lines, "serve": check_serve, "full": check_full}
    if not words or words[0] not in checks:
        sys.exit(__doc__)
    checks[words[0]](*words[1:])


main(sys.argv[1:])
