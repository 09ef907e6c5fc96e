"""Whether a value is what a JSON schema describes, by jsonschema where that is installed, and else by the few words that
the schemas of docs/ use."""

import re

try:
    import jsonschema
except ImportError:
    jsonschema = None

TYPES = {"object": dict, "array": list, "string": str, "boolean": bool, "integer": int, "null": type(None)}


def fault(value, schema):
    """What in the value isn't as the schema says, or nothing."""
    if jsonschema is None:
        return next(faults(value, schema, schema), None)
    return next((error.message for error in jsonschema.Draft202012Validator(schema).iter_errors(value)), None)


def is_of(value, named):
    """Whether the value has this type, or one of these."""
    names = named if isinstance(named, list) else [named]
    return type(value) in [TYPES[name] for name in names]


def faults(value, schema, whole):
    """The same by hand."""
    if "$ref" in schema:
        target = whole
        for word in schema["$ref"].removeprefix("#/").split("/"):
            target = target[word]
        yield from faults(value, target, whole)
    for part in schema.get("allOf", []):
        yield from faults(value, part, whole)
    parts = [list(faults(value, part, whole)) for part in schema.get("anyOf", [])]
    if parts and all(parts):
        yield f"{value!r} is none of these: {parts}"
    if "type" in schema and not is_of(value, schema["type"]):
        yield f"{value!r} is no {schema['type']}"
        return
    if "const" in schema and value != schema["const"]:
        yield f"{value!r} is not {schema['const']!r}"
    if "enum" in schema and value not in schema["enum"]:
        yield f"{value!r} is none of {schema['enum']}"
    if "pattern" in schema and not re.search(schema["pattern"], value):
        yield f"{value!r} is not like {schema['pattern']}"
    if isinstance(value, list):
        if len(value) < schema.get("minItems", 0) or schema.get("uniqueItems") and len(set(value)) < len(value):
            yield f"{value!r} has too few items, or one twice"
        for item in value:
            yield from faults(item, schema.get("items", {}), whole)
    if isinstance(value, dict):
        known = schema.get("properties", {})
        yield from (f"{key} is missing" for key in schema.get("required", []) if key not in value)
        for key, item in value.items():
            if key in known:
                yield from faults(item, known[key], whole)
            elif not schema.get("additionalProperties", True):
                yield f"{key} is unknown"
