#!/usr/bin/env python3
"""Says which lines of standard input are not valid by a JSON Schema (2020-12), for the keywords that the schemas here use.

usage: validate.py SCHEMA [NAME] <LINES

NAME is a definition of the schema, as `ClientLine`; without one the schema's root is meant. A line that is no JSON isn't valid, and
blank lines are ignored. The status is 1 if a line is not valid.
"""
import json
import re
import sys

# What says nothing of a value, and where a schema keeps others.
ANNOTATIONS = {"$schema", "title", "description", "default", "$defs"}


def is_number(value):
    return isinstance(value, (int, float)) and not isinstance(value, bool)


TYPES = {
    "null": lambda value: value is None,
    "boolean": lambda value: isinstance(value, bool),
    "integer": lambda value: is_number(value) and value == value // 1,
    "number": is_number,
    "string": lambda value: isinstance(value, str),
    "array": lambda value: isinstance(value, list),
    "object": lambda value: isinstance(value, dict),
}


def is_same(one, other):
    """Equal as JSON: 1 is 1.0, and true is no number."""
    if isinstance(one, bool) or isinstance(other, bool):
        return one is other
    if isinstance(one, list) and isinstance(other, list):
        return len(one) == len(other) and all(map(is_same, one, other))
    if isinstance(one, dict) and isinstance(other, dict):
        return one.keys() == other.keys() and all(is_same(one[key], other[key]) for key in one)
    return one == other


def matches(pattern, text):
    """In patterns of ECMA-262 `$` is the end alone, and not before a line feed that ends the text."""
    return re.search(re.sub(r"\$(?=\)|$)", r"\\Z", pattern), text) is not None


class Validator:
    """Whether values are valid by the schemas of one document."""

    def __init__(self, document):
        self.document = document

    def at(self, pointer):
        """The schema that a reference names."""
        schema = self.document
        for part in pointer.removeprefix("#").split("/")[1:]:
            schema = schema[part.replace("~1", "/").replace("~0", "~")]
        return schema

    def is_valid(self, schema, value):
        if isinstance(schema, bool):
            return schema
        return all(self.holds(keyword, schema, value) for keyword in schema)

    def holds(self, keyword, schema, value):
        """Whether the value meets one keyword of the schema."""
        if keyword in ANNOTATIONS or keyword in ("then", "else"):
            return True
        said = schema[keyword]
        for check in (self.of_any, self.of_schemas, self.of_numbers, self.of_texts, self.of_arrays, self.of_objects):
            held = check(keyword, said, schema, value)
            if held is not None:
                return held
        raise ValueError(f"the keyword {keyword} isn't known here")

    def of_any(self, keyword, said, schema, value):
        if keyword == "type":
            return any(TYPES[name](value) for name in ([said] if isinstance(said, str) else said))
        if keyword == "const":
            return is_same(said, value)
        if keyword == "enum":
            return any(is_same(one, value) for one in said)
        return None

    def of_schemas(self, keyword, said, schema, value):
        if keyword == "$ref":
            return self.is_valid(self.at(said), value)
        if keyword == "allOf":
            return all(self.is_valid(one, value) for one in said)
        if keyword == "anyOf":
            return any(self.is_valid(one, value) for one in said)
        if keyword == "oneOf":
            return sum(self.is_valid(one, value) for one in said) == 1
        if keyword == "not":
            return not self.is_valid(said, value)
        if keyword == "if":
            branch = "then" if self.is_valid(said, value) else "else"
            return self.is_valid(schema.get(branch, True), value)
        return None

    def of_numbers(self, keyword, said, schema, value):
        if keyword == "minimum":
            return not is_number(value) or value >= said
        if keyword == "maximum":
            return not is_number(value) or value <= said
        return None

    def of_texts(self, keyword, said, schema, value):
        if keyword == "pattern":
            return not isinstance(value, str) or matches(said, value)
        return None

    def of_arrays(self, keyword, said, schema, value):
        is_array = isinstance(value, list)
        if keyword == "items":
            return not is_array or all(self.is_valid(said, item) for item in value)
        if keyword == "minItems":
            return not is_array or len(value) >= said
        if keyword == "maxItems":
            return not is_array or len(value) <= said
        return None

    def of_objects(self, keyword, said, schema, value):
        is_object = isinstance(value, dict)
        if keyword == "properties":
            return not is_object or all(self.is_valid(one, value[name]) for name, one in said.items() if name in value)
        if keyword == "required":
            return not is_object or all(name in value for name in said)
        if keyword == "additionalProperties":
            others = set(value) - set(schema.get("properties", {})) if is_object else ()
            return all(self.is_valid(said, value[name]) for name in others)
        return None


def is_valid_line(validator, schema, line):
    try:
        value = json.loads(line)
    except ValueError:
        return False
    return validator.is_valid(schema, value)


def main(words):
    if len(words) not in (1, 2):
        sys.exit(__doc__)
    with open(words[0]) as file:
        document = json.load(file)
    validator = Validator(document)
    if words[1:] and words[1] not in document.get("$defs", {}):
        sys.exit(f"{words[0]} has no definition {words[1]}")
    schema = validator.at(f"#/$defs/{words[1]}") if words[1:] else document
    is_bad = False
    for number, line in enumerate(sys.stdin, 1):
        if line.strip() and not is_valid_line(validator, schema, line):
            print(f"{number}: {line.rstrip()}")
            is_bad = True
    sys.exit(1 if is_bad else 0)


if __name__ == "__main__":
    main(sys.argv[1:])
