"""The definitions of JSON Schema that both documents of this folder have: lines in, texts out, and the gateway's answers.

Which types there are, their fields and the reasons of a decline come from the tables of docs/LINES.md. The forms of fields, the
rules between fields and the texts stand here.
"""
import json
import re
from pathlib import Path

LINES = Path(__file__).resolve().parent.parent / "docs" / "LINES.md"

# Currencies by their decimals, and how many minor units an amount and a limit have at most, as a power of ten.
CURRENCIES = {2: ["USD", "EUR", "GBP", "CAD", "AUD"], 0: ["JPY"], 3: ["KWD"]}
AMOUNT_POWER = 9
LIMIT_POWER = 12
CARD_STATES = ["UNACTIVATED", "ACTIVE", "SUSPENDED", "TERMINATED"]
USER_STATES = ["ACTIVE", "SUSPENDED", "CLOSED"]
NO_CLIENT = ["answer", "ack", "time"]
NULL = {"type": "null"}
INTEGERS = (
    "JSON Schema calls `10.0`, `1e1`, `3000.0` and `-0` integers. The program refuses them: it takes a whole number without a sign, "
    "a point or an exponent."
)


def ref(name):
    return {"$ref": f"#/$defs/{name}"}


def words(*texts):
    return {"enum": list(texts)}


def whole(least, most):
    return {"type": "integer", "minimum": least, "maximum": most}


def nullable(schema):
    """A member that is null counts as absent."""
    return {"anyOf": [schema, NULL]}


def absent(*fields):
    return {"properties": {field: NULL for field in fields}}


def present(field):
    return {"properties": {field: {"not": NULL}}, "required": [field]}


# ---- forms of fields

def power_text(power, decimals):
    """The text of ten to this power in minor units."""
    units = "1" + "0" * (power - decimals)
    return f"{units}\\.{'0' * decimals}" if decimals else units


def money_pattern(power, decimals, is_amount):
    """Texts of up to ten to this power in minor units, with exactly these decimals; an amount is more than nothing."""
    digits = power - decimals - 1
    units = f"[1-9][0-9]{{0,{digits}}}"
    greatest = power_text(power, decimals)
    if not decimals:
        return f"^({units}|{greatest})$" if is_amount else f"^(0|{units}|{greatest})$"
    more_than_nothing = f"(?!0\\.{'0' * decimals}$)" if is_amount else ""
    return f"^{more_than_nothing}((0|{units})\\.[0-9]{{{decimals}}}|{greatest})$"


def money(power, decimals, is_amount):
    """A text, or a whole number of whole units."""
    text = {"type": "string", "pattern": money_pattern(power, decimals, is_amount)}
    return {"anyOf": [text, whole(1 if is_amount else 0, 10 ** (power - decimals))]}


def by_currency(schemas):
    """The members that this gives for a number of decimals, if the object's currency has that many."""
    return {"allOf": [
        {"if": {"properties": {"currency": words(*codes)}, "required": ["currency"]}, "then": {"properties": schemas(decimals)}}
        for decimals, codes in CURRENCIES.items()
    ]}


def money_said(decimals):
    limit = money(LIMIT_POWER, decimals, False)
    return {"amount": money(AMOUNT_POWER, decimals, True), "amount_limit": nullable(limit), "max": limit, "day_limit": limit}


def money_told(decimals):
    units = "(0|[1-9][0-9]*)" + (f"\\.[0-9]{{{decimals}}}" if decimals else "")
    text = {"pattern": f"^{units}$"}
    return {"amount": text, "gateway": text, "held": text, "balance": {"pattern": f"^-?{units}$"}}


MONEY = {
    "type": ["string", "integer"],
    "description": f"A text with exactly the decimals of the line's currency, or a number of whole units. {INTEGERS}",
}
FLAG = {"type": "boolean"}
FORMS = {
    **dict.fromkeys(["token", "user", "card", "product", "group", "control", "set", "mid", "txn"], ref("Name")),
    **dict.fromkeys(["amount", "amount_limit", "max", "day_limit"], ref("Money")),
    **dict.fromkeys(["active", "connection", "timeout", "application", "on", "final", "partial"], FLAG),
    **dict.fromkeys(["call", "notice"], ref("Number")),
    "currency": ref("Currency"),
    "usage_limit": whole(0, 1000000),
    "mcc": ref("CategoryCode"),
    "mccs": {"type": "array", "items": ref("CategoryCode"), "minItems": 1, "maxItems": 1000},
    "funding": words("ACCOUNT", "GATEWAY"),
    "window": words("TRANSACTION", "DAY", "WEEK", "MONTH", "LIFETIME"),
    "utc_offset": {"type": "string", "pattern": "^(\\+0[0-9]:[0-5][0-9]|\\+1[0-3]:[0-5][0-9]|\\+14:00|-00:(0[1-9]|[1-5][0-9])|-0[1-9]:[0-5][0-9]|-1[01]:[0-5][0-9]|-12:00)$"},
    "to": words(*dict.fromkeys(CARD_STATES + USER_STATES)),
    "timeout_ms": whole(1, 60000),
    "hold_ms": whole(86400000, 2678400000),
    "outcome": words("FUNDED", "REFUSED", "CONNECTION", "APPLICATION", "PARTIAL"),
}
# Fields that a rule alone tests: if it doesn't, they are ignored.
BY_RULE = {"answer": ["currency", "amount"]}
# What holds between the fields of a type.
RULES = {
    "answer": [{
        "if": {"properties": {"outcome": {"const": "PARTIAL"}}, "required": ["outcome"]},
        "then": {
            "properties": {field: FORMS[field] for field in BY_RULE["answer"]}, "required": BY_RULE["answer"], "allOf": [ref("MoneySaid")],
        },
    }],
    "move": [{"oneOf": [
        {**present("card"), "allOf": [absent("user"), {"properties": {"to": words(*CARD_STATES)}}]},
        {**present("user"), "allOf": [absent("card"), {"properties": {"to": words(*USER_STATES)}}]},
    ]}],
    "control": [
        {"anyOf": [present("amount_limit"), present("usage_limit")]},
        {"if": {"properties": {"window": {"const": "TRANSACTION"}}, "required": ["window"]}, "then": absent("usage_limit")},
        {"anyOf": [absent("user"), absent("product")]},
        {"anyOf": [absent("mcc", "group"), absent("mcc", "mid"), absent("group", "mid")]},
    ],
}


# ---- the tables of docs/LINES.md

def section(heading):
    return LINES.read_text().split(f"\n## {heading}\n", 1)[1].split("\n## ", 1)[0]


def rows(text):
    """The cells of the rows of the first table in a text, without its head."""
    table = re.search(r"(?:^\|.*\n)+", text, re.M).group()
    return [[cell.strip() for cell in line.strip("|").split(" | ")] for line in table.splitlines()[2:]]


def field_of(text):
    """A field as the table has it: its name, whether it may be left out, and its default."""
    name, mark, default = re.fullmatch(r"`(\w+)`(\?)?(?: (.+))?", text).groups()
    return name, mark is not None, json.loads(default.replace("`", '"')) if default else None


def types():
    """The types of line: the fields of each, and what it does."""
    for kind, fields, text in rows(section("Types and fields")):
        yield kind.strip("`"), [] if fields == "none" else [field_of(field) for field in fields.split(", ")], text.replace("`", "")


def reasons():
    """All reasons of a decline, in the order of the page."""
    found = re.findall(r"`([A-Z_]+(?::\w+)*)`", section("Reasons of a decline"))
    return list(dict.fromkeys(found))


def reason_schema():
    moves = [f"MOVE:({'|'.join(states)}):({'|'.join(states)})" for states in (CARD_STATES, USER_STATES)]
    named = [f"{reason.partition(':')[0]}:[A-Za-z0-9_-]{{1,36}}" for reason in reasons() if reason.endswith(":name")]
    plain = [reason for reason in reasons() if ":" not in reason]
    return {"anyOf": [words(*plain), {"type": "string", "pattern": f"^({'|'.join(moves + named)})$"}]}


# ---- lines in

def type_name(kind):
    return f"{kind.capitalize()}Line"


def line_schema(kind, fields, text):
    properties = {"type": {"const": kind}}
    for name, is_optional, default in fields:
        if name in BY_RULE.get(kind, []):
            continue
        schema = nullable(FORMS[name]) if is_optional else FORMS[name]
        properties[name] = schema if default is None else {**schema, "default": default}
    required = ["type", *(name for name, is_optional, _ in fields if not is_optional)]
    rules = list(RULES.get(kind, []))
    if "currency" in properties:
        rules.append(ref("MoneySaid"))
    if kind == "time":
        rules.append(present("at"))
    return {
        "description": text[0].upper() + text[1:] + ".", "type": "object", "properties": properties, "required": required,
        **({"allOf": rules} if rules else {}),
    }


def lines_in():
    every = list(types())
    schemas = {type_name(kind): line_schema(kind, fields, text) for kind, fields, text in every}
    stamp = nullable({**whole(0, 253370764799999), "description": f"The line's stamp, in milliseconds since 1970. {INTEGERS}"})
    schemas["Line"] = {
        "description": "A line that `dry` and `replay` take. Members that aren't named are ignored.",
        "properties": {"at": stamp}, "oneOf": [ref(type_name(kind)) for kind, _, _ in every],
    }
    schemas["ClientLine"] = {
        "description": "A line that a client posts to `serve`. Its member `at`, and members that aren't named, are ignored.",
        "oneOf": [ref(type_name(kind)) for kind, _, _ in every if kind not in NO_CLIENT],
    }
    return schemas


# ---- texts out

def text_of(description, rules=(), optional=(), **members):
    """An object with exactly these members, of which some may be absent."""
    return {
        "description": description, "type": "object", "properties": members,
        "required": [name for name in members if name not in optional], "additionalProperties": False,
        **({"allOf": list(rules)} if rules else {}),
    }


def fault_schemas():
    every = dict.fromkeys(["type", "at"] + [name for _, fields, _ in types() for name, _, _ in fields])
    http = ["HEAD", "HEAD_LONG", "METHOD", "PATH", "CODING", "NO_LENGTH", "BODY_LONG"]
    return {
        "LineFault": text_of("The line is too long, or isn't one JSON object.", fault=words("LONG", "JSON"), reply={"const": "form"}),
        "FieldFault": text_of(
            "The first bad field of the line.", fault={"const": "FIELD"}, field=words(*every), reply={"const": "form"}),
        "HttpFault": text_of("The request has a fault of HTTP.", fault=words(*http), reply={"const": "http"}),
    }


def reply_schemas():
    states = ["FUNDED", "PARTIAL", "REFUSED", "CONNECTION", "TIMEOUT", "APPLICATION", "ABANDONED"]
    event, count = {"event": ref("Name")}, {"type": "integer", "minimum": 0}
    return {
        "Accepted": text_of("The event is done or approved, or it waits for the gateway.",
                            **event, reply=words("done", "approved", "pending")),
        "PartlyAccepted": text_of("The authorisation is approved for a part of its amount.",
                                  amount={"type": "string", "pattern": "^(0|[1-9][0-9]*)(\\.[0-9]{2,3})?$"}, **event,
                                  reply={"const": "partial"}),
        "Declined": text_of("The event is declined.", **event, reason=ref("Reason"), reply={"const": "declined"}),
        "Conflict": text_of("The event's token stands with other fields, by the record of this number.",
                            **event, record=whole(1, 1073741823), reply={"const": "conflict"}),
        "Full": text_of("The record doesn't fit on the device.", free=count, need=count, reply={"const": "full"}),
        "Spent": text_of("There are as many records as there may be.", reply={"const": "spent"}),
        "Late": text_of("The answer came after its call was closed, and this is how it was closed.",
                        call=ref("Number"), reply={"const": "late"}, state=words(*states)),
        "UnknownCall": text_of("There is no such call.", call=ref("Number"), reply={"const": "unknown"}),
        "Acknowledged": text_of("An acknowledgement's reply.", notice=ref("Number"), reply=words("acked", "already", "unknown")),
        "Passed": text_of("Something was due at this time, or nothing.", reply=words("time", "idle")),
    }


def message_schemas():
    told = {"amount": {"type": "string"}, "currency": ref("Currency"), "user": ref("Name"), "txn": ref("Name")}
    request = {
        **told, "card": ref("Name"), "event": ref("Name"), "mcc": ref("CategoryCode"), "mid": ref("Name"), "number": ref("Number"),
        "partial": {"const": True}, "token": ref("CallToken"), "method": words("pgfs.authorization", "pgfs.authorization.incremental"),
    }
    notice = {**told, "gateway": {"type": "string"}, "notice": ref("Number")}
    others = ["x.standin", "x.expiry", "pgfs.authorization.reversal", "pgfs.authorization.capture", "pgfs.refund"]
    rules = [ref("MoneyTold")]
    return {
        "Request": text_of(
            "Asks the gateway for the funds of a purchase, or of more of one.", rules, ["partial"], **dict(sorted(request.items()))),
        "Void": text_of("The call ended without an answer that decides: the gateway undoes or refuses its token.", rules,
                        **dict(sorted({**notice, "method": {"const": "x.void"}, "token": ref("CallToken")}.items()))),
        "Happened": text_of("Tells the gateway what happened.", rules, **dict(sorted({**notice, "method": words(*others)}.items()))),
    }


def report_schemas():
    sheet = {"balance": {"type": "string"}, "currency": ref("Currency")}
    count = {"type": "integer", "minimum": 0}
    dollars = {"type": "string", "pattern": "^-?(0|[1-9][0-9]*)\\.[0-9]{2}$"}
    drill = {
        **dict.fromkeys(["approved", "declined", "lines", "notices", "records", "repeats"], count),
        **dict.fromkeys(["gateway", "held", "network", "programme"], dollars),
    }
    return {
        "Account": text_of("What an account of the programme's side has.", [ref("MoneyTold")],
                           account=words("gateway", "network", "programme"), **sheet),
        "UserAccount": text_of("What a user has, and what of that is held.", [ref("MoneyTold")],
                               account={"const": "user"}, **sheet, held={"type": "string"}, user=ref("Name")),
        "Counts": text_of("How much waits for the gateway, and how many records there are.", calls=count, notices=count, records=count),
        "DrillLine": text_of("What a drill counted, and what then stands.", **dict(sorted(drill.items()))),
    }


def texts_out():
    faults, replies, messages, reports = fault_schemas(), reply_schemas(), message_schemas(), report_schemas()
    said = [name for name in [*faults, *replies, *messages] if name != "HttpFault"]
    return {
        **faults, **replies, **messages, **reports,
        "Text": {"description": "A line that `dry` and `replay` write.", "oneOf": [ref(name) for name in said]},
        "BalanceLine": {"description": "A line that `balances` writes.", "oneOf": [ref(name) for name in reports if name != "DrillLine"]},
    }


def gateway_answers():
    digit = "[0-9A-Fa-f]"
    plain = f"{digit}{{32}}"
    hyphens = "-".join(f"{digit}{{{count}}}" for count in (8, 4, 4, 4, 12))
    return {"Funding": {
        "description": (
            "Funds a request whose token and amount it has, or a part of it if the amount is smaller and the request has `partial`. Other "
            "members are ignored."),
        "type": "object",
        "properties": {
            "token": {"type": "string", "pattern": f"^({hyphens}|{plain}|\\{{{hyphens}\\}}|urn:uuid:{hyphens})$"},
            "amount": {
                "type": ["string", "integer"],
                "description": f"The request's own text, or as many whole units; or a part, written likewise. {INTEGERS}",
            },
        },
        "required": ["token", "amount"],
    }}


def definitions():
    return {
        "Name": {"type": "string", "pattern": "^[A-Za-z0-9_-]{1,36}$"},
        "CategoryCode": {"type": "string", "pattern": "^[0-9]{4}$", "description": "A merchant category code of ISO 18245."},
        "Currency": words(*sum(CURRENCIES.values(), [])),
        "Number": whole(1, 4294967295),
        "CallToken": {
            "type": "string", "pattern": "^[0-9a-f]{8}-[0-9a-f]{4}-8000-8000-0000[0-9a-f]{8}$",
            "description": "A UUID of version 8: the issuer's instance in its first 48 bits, and the call's number in its last.",
        },
        "Money": MONEY,
        "MoneySaid": by_currency(money_said),
        "MoneyTold": by_currency(money_told),
        "Reason": reason_schema(),
        **lines_in(), **texts_out(), **gateway_answers(),
    }
