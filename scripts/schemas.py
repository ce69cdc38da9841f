"""Holds JSON values against a JSON schema, of whose keywords those are known that docs/types.schema.json has; another one is an error, so that none is
passed over."""

WORDS = {
    "$schema", "title", "description", "$defs", "$ref", "anyOf", "const", "type", "minimum", "required", "properties", "additionalProperties", "items",
    "minItems", "maxItems",
}
KINDS = {
    "null": lambda it: it is None,
    "boolean": lambda it: isinstance(it, bool),
    "string": lambda it: isinstance(it, str),
    "integer": lambda it: isinstance(it, int) and not isinstance(it, bool),
    "array": lambda it: isinstance(it, list),
    "object": lambda it: isinstance(it, dict),
}


def faults_in(value, schema, whole=None, at="the document"):
    """What of a value isn't as a schema has it, a line each; `whole` is the schema that `$ref` leads into."""
    whole = whole or schema
    unknown = schema.keys() - WORDS
    if unknown:
        raise ValueError(f"the schema has keywords that aren't known: {sorted(unknown)}")
    if "$ref" in schema:
        found = whole
        for step in schema["$ref"].removeprefix("#/").split("/"):
            found = found[step]
        return faults_in(value, found, whole, at)
    if "anyOf" in schema:
        tried = [faults_in(value, one, whole, at) for one in schema["anyOf"]]
        return [] if [] in tried else min(tried, key=len)
    if "const" in schema:
        return [] if value == schema["const"] and type(value) is type(schema["const"]) else [f"{at} is {value!r}"]
    if not KINDS[schema["type"]](value):
        return [f"{at} is no {schema['type']}"]
    if "minimum" in schema and value < schema["minimum"]:
        return [f"{at} is {value}"]
    if isinstance(value, list):
        if not schema.get("minItems", 0) <= len(value) <= schema.get("maxItems", len(value)):
            return [f"{at} has {len(value)} items"]
        return [it for number, item in enumerate(value) for it in faults_in(item, schema["items"], whole, f"{at}[{number}]")]
    if isinstance(value, dict):
        parts = schema["properties"]
        faults = [f"{at} has no '{it}'" for it in schema["required"] if it not in value]
        if schema["additionalProperties"] is False:
            faults += [f"{at} has '{it}'" for it in value if it not in parts]
        return faults + [it for key in parts if key in value for it in faults_in(value[key], parts[key], whole, f"{at}.{key}")]
    return []
