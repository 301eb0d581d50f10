# What the tests of --json share: a reader of JSON that takes nothing but JSON, and a check against the schema that the program prints, for the words that it uses.
import json
import re

KINDS = {"object": dict, "array": list, "string": str, "null": type(None), "boolean": bool}
KNOWN = {"$schema", "$defs", "$ref", "title", "anyOf", "type", "enum", "const", "pattern", "required", "properties", "additionalProperties", "items"}


def objects(text):
    """The objects of an output: one a line, each key once, no NaN."""
    def once(pairs):
        assert len({key for key, _ in pairs}) == len(pairs), "a key twice"
        return dict(pairs)

    def none(word):
        raise ValueError(f"{word} is no JSON")
    assert not text or text.endswith("\n")
    return [json.loads(line, object_pairs_hook=once, parse_constant=none) for line in text.splitlines()]


def is_kind(kind, value):
    if kind == "integer":
        return isinstance(value, int) and not isinstance(value, bool)
    if kind == "number":
        return isinstance(value, (int, float)) and not isinstance(value, bool)
    return isinstance(value, KINDS[kind])


def fits(schema, value, whole):
    """Whether a value is as the schema says."""
    assert set(schema) <= KNOWN, set(schema) - KNOWN
    if "$ref" in schema:
        at = whole
        for word in schema["$ref"].removeprefix("#/").split("/"):
            at = at[word]
        return fits(at, value, whole)
    if "anyOf" in schema and not any(fits(one, value, whole) for one in schema["anyOf"]):
        return False
    kinds = schema.get("type", [])
    if kinds and not any(is_kind(kind, value) for kind in ([kinds] if isinstance(kinds, str) else kinds)):
        return False
    if "enum" in schema and value not in schema["enum"] or "const" in schema and value != schema["const"]:
        return False
    if "pattern" in schema and isinstance(value, str) and not re.search(schema["pattern"], value):
        return False
    if isinstance(value, dict):
        known = schema.get("properties", {})
        if set(schema.get("required", [])) - set(value) or schema.get("additionalProperties") is False and set(value) - set(known):
            return False
        return all(fits(known[key], item, whole) for key, item in value.items() if key in known)
    if isinstance(value, list) and "items" in schema:
        return all(fits(schema["items"], item, whole) for item in value)
    return True


def as_bytes(shown):
    """A string of the output as bytes."""
    return None if shown is None else bytes.fromhex(shown["hex"]) if isinstance(shown, dict) else shown.encode()
