"""docs/scf.schema.json: whether an object is as it says, in the part of JSON Schema that it uses.

A member that the schema doesn't have is a fault here, though readers ignore those that they don't know.
"""
import json
import os
import re

TOP = os.path.abspath(os.path.join(os.path.dirname(__file__), "..", "..", ".."))
with open(os.path.join(TOP, "docs", "scf.schema.json"), encoding="utf-8") as file:
    SCHEMA = json.load(file)
COMMANDS = {name for name in os.listdir(os.path.join(TOP, "tools")) if name in SCHEMA["$defs"]}
TYPES = {"object": dict, "array": list, "string": str, "integer": int, "number": (int, float), "boolean": bool,
         "null": type(None)}
KEYWORDS = {"description", "allOf", "anyOf", "type", "const", "enum", "pattern", "required", "properties",
            "additionalProperties", "items", "minItems", "maxItems"}


def definition(schema):
    """The schema to which a reference leads."""
    while "$ref" in schema:
        schema = SCHEMA["$defs"][schema["$ref"].rpartition("/")[2]]
    return schema


def has_type(value, name):
    return isinstance(value, TYPES[name]) and not (isinstance(value, bool) and name in ("integer", "number"))


def members(schema):
    """The members that a schema names; None if there may be others."""
    schema = definition(schema)
    if "properties" not in schema and "allOf" not in schema or schema.get("additionalProperties"):
        return None
    return {*schema.get("properties", ()), *(name for part in schema.get("allOf", ()) for name in members(part))}


def faults(value, schema, where="", is_part=False):
    """What isn't as a schema says, each with the path to it. `is_part` says that others name members of it, too."""
    schema = definition(schema)
    assert schema.keys() <= KEYWORDS, schema
    names = [schema["type"]] if isinstance(schema.get("type"), str) else schema.get("type", ())
    if names and not any(has_type(value, name) for name in names):
        yield f"{where}: {value!r} isn't of type {names}"
        return
    if value != schema.get("const", value) or value not in schema.get("enum", [value]):
        yield f"{where}: {value!r} isn't one of {schema.get('enum', schema.get('const'))}"
    if "pattern" in schema and not re.search(schema["pattern"], value):
        yield f"{where}: {value!r} doesn't match {schema['pattern']}"
    for part in schema.get("allOf", ()):
        yield from faults(value, part, where, True)
    if "anyOf" in schema and all(any(faults(value, item, where)) for item in schema["anyOf"]):
        yield f"{where}: {value!r} is none of {schema['anyOf']}"
    if isinstance(value, list) and not schema.get("minItems", 0) <= len(value) <= schema.get("maxItems", len(value)):
        yield f"{where}: {len(value)} items"
    for at, item in enumerate(value if isinstance(value, list) and "items" in schema else ()):
        yield from faults(item, schema["items"], f"{where}[{at}]")
    if isinstance(value, dict):
        yield from _faults_of_members(value, schema, where, is_part)


def _faults_of_members(value, schema, where, is_part):
    yield from (f"{where}: {name} is missing" for name in schema.get("required", ()) if name not in value)
    known_members, others = members(schema), schema.get("additionalProperties")
    if not is_part and known_members is not None and others is None:
        yield from (f"{where}: {name} isn't in the schema" for name in value if name not in known_members)
    for name, item in value.items():
        if name in schema.get("properties", ()):
            yield from faults(item, schema["properties"][name], f"{where}.{name}")
        elif isinstance(others, dict):
            yield from faults(item, others, f"{where}.{name}")


def faults_of_output(words, out, status):
    """The faults in what a command line with --json, or --json-lines, printed when it ended with this status."""
    command = next((item for item in map(os.path.basename, words[:2]) if item in COMMANDS), None)
    if command is None or not {"--json", "--json-lines"}.intersection(words) or not out.startswith("{"):
        return
    name = command if "--json" in words else "audit-lines"
    for value in map(json.loads, out.splitlines()):
        yield from faults(value, {"$ref": f"#/$defs/{name}"}, name)
        # (a dry run of the hook ends with 0)
        if value.get("status", status) != status and not value.get("dry_run"):
            yield f"{name}: the status is {value['status']}, and that of the process {status}"
