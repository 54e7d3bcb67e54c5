#!/usr/bin/env python3
"""Writes api/line.schema.json (JSON Schema 2020-12) and api/openapi.json (OpenAPI 3.1) from the definitions beside it.

With --check it writes nothing, and ends with 1 if either file is another than it would write.
"""
import json
import sys
from pathlib import Path

from definitions import INTEGERS, NO_CLIENT, definitions

HERE = Path(__file__).resolve().parent
DIALECT = "https://json-schema.org/draft/2020-12/schema"
REQUEST = {
    "amount": "60.00", "card": "c1", "currency": "USD", "event": "a1", "mcc": "5411", "method": "pgfs.authorization", "mid": "m1",
    "number": 1, "token": "00000000-0000-8000-8000-000000000001", "txn": "a1", "user": "u1",
}
FUNDING = {"token": REQUEST["token"], "amount": REQUEST["amount"]}
PURCHASE = {
    "type": "authorization", "token": "a1", "card": "c1", "currency": "USD", "amount": "50.00", "mcc": "5411", "mid": "m1",
}


def line_schema():
    return {
        "$schema": DIALECT,
        "title": "Lines of the issuer",
        "description": f"What `dry` and `replay` take, and in `$defs` each text that the program writes. {INTEGERS}",
        "$ref": "#/$defs/Line",
        "$defs": definitions(),
    }


def moved(schema):
    """The same schema with its references into the components of an OpenAPI document."""
    if isinstance(schema, dict):
        return {key: moved(value) for key, value in schema.items()}
    if isinstance(schema, list):
        return [moved(value) for value in schema]
    return schema.replace("#/$defs/", "#/components/schemas/") if isinstance(schema, str) else schema


def body(schema, example=None):
    """Content of JSON by a schema, or by one of several."""
    schema = schema if isinstance(schema, dict) else {"oneOf": [{"$ref": f"#/$defs/{name}"} for name in schema]}
    return {"application/json": {"schema": schema, **({"example": example} if example else {})}}


def response(description, schema, example):
    return {"description": description, "content": body(schema, example)}


def server(variable, port, description):
    url = f"http://127.0.0.1:{{{variable}}}"
    return [{"url": url, "description": description, "variables": {variable: {"default": port}}}]


def events():
    return {
        "servers": server("port", "8080", "`issuer serve`, on this machine alone"),
        "post": {
            "operationId": "postEvent",
            "summary": "Sends one event, and answers when it is decided",
            "description": (
                "A request needs one Content-Length, and no coding. To send the same bytes again is safe: an event acts once, and gets "
                f"its reply again. A body of more than 16384 bytes is refused, and so is the path with a query string. {INTEGERS}"),
            "requestBody": {"required": True, "content": body({"$ref": "#/$defs/ClientLine"}, PURCHASE)},
            "responses": {
                "200": response("The event was decided, or it waits for the gateway; a decline is a decision.",
                                ["Accepted", "PartlyAccepted", "Declined"], {"event": "a1", "reply": "approved"}),
                "400": response("The line has a fault of form, or the request one of HTTP. The same bytes will never do.",
                                ["LineFault", "FieldFault", "HttpFault"], {"fault": "FIELD", "field": "type", "reply": "form"}),
                "404": response("The path isn't `/events`.", ["HttpFault"], {"fault": "PATH", "reply": "http"}),
                "409": response("The event's token stands with other fields. The same bytes will never do.",
                                ["Conflict"], {"event": "a1", "record": 4, "reply": "conflict"}),
                "507": response("The event's record doesn't fit on the device, or it would be one more than there may be.",
                                ["Full", "Spent"], {"free": 18, "need": 20, "reply": "full"}),
            },
        },
    }


def gateway():
    return {
        "servers": server("gatewayPort", "8081", "The customer's gateway, which the issuer calls, on the issuer's machine"),
        "post": {
            "operationId": "askGateway",
            "summary": "The issuer asks for funds, or tells what happened",
            "description": (
                "Each message has a connection of its own. What waits comes again with the same bytes when the issuer starts, so a gateway "
                "acts once on each token and on each notice's number. docs/GATEWAY.md says which answers are failures."),
            "requestBody": {"required": True, "content": body(["Request", "Void", "Happened"], REQUEST)},
            "responses": {
                "200": {
                    "description": (
                        "Funds a request if the body has its token and amount, or a part if the request permits one; with another body it is no "
                        "answer that decides. Acknowledges a notice, with any body or none. A Content-Length is needed, or the end of the "
                        "connection."),
                    "content": body({"$ref": "#/$defs/Funding"}, FUNDING),
                },
                "402": {"description": "Refuses a request, with any body."},
                "default": {"description": "No answer that decides: the issuer sends a void. A notice waits, and comes again."},
            },
        },
    }


def openapi():
    document = {
        "openapi": "3.1.0",
        "info": {
            "title": "issuer",
            "version": "1",
            "description": (
                "What a client posts to `issuer serve`, and what `issuer serve` posts to the customer's gateway. Each response and each "
                f"message is one JSON object. Lines of the types {', '.join(NO_CLIENT)} are for `dry` and `replay` alone."),
        },
        "jsonSchemaDialect": DIALECT,
        "paths": {"/events": events(), "/jit": gateway()},
        "components": {"schemas": definitions()},
    }
    return moved(document)


def main(words):
    is_check = words == ["--check"]
    stale = []
    for name, document in (("line.schema.json", line_schema()), ("openapi.json", openapi())):
        text = json.dumps(document, indent=2) + "\n"
        path = HERE / name
        if not is_check:
            path.write_text(text)
        elif not path.exists() or path.read_text() != text:
            stale.append(name)
    if stale:
        sys.exit(f"api/{', api/'.join(stale)}: another than docs/LINES.md and api/definitions.py say. Run: make api")


if __name__ == "__main__":
    main(sys.argv[1:])
