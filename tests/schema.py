"""Whether a value has the form of a JSON schema, as far as docs/answer.schema.json uses that language."""


def wrong_with(value, schema, whole, path="it"):
    """What is wrong with a value, in lines; a member that the schema doesn't name is wrong too."""
    if "$ref" in schema:
        return wrong_with(value, whole["$defs"][schema["$ref"].rpartition("/")[2]], whole, path)
    if "anyOf" in schema:
        tried = [wrong_with(value, it, whole, path) for it in schema["anyOf"]]
        return [] if [] in tried else [f"{path} is none of {len(tried)} forms", *min(tried, key=len)]
    if "const" in schema:
        return [] if value == schema["const"] else [f"{path} isn't {schema['const']}"]
    if "enum" in schema:
        return [] if value in schema["enum"] else [f"{path} is none of {schema['enum']}: {value!r}"]
    kinds = {"object": dict, "array": list, "string": str, "integer": int, "boolean": bool}
    if not isinstance(value, kinds[schema["type"]]) or (schema["type"] == "integer" and isinstance(value, bool)):
        return [f"{path} is no {schema['type']}: {value!r}"]
    if schema["type"] == "array":
        return [text for at, it in enumerate(value) for text in wrong_with(it, schema["items"], whole, f"{path}[{at}]")]
    if schema["type"] == "object":
        lost = [f"{path} has no {it}" for it in schema.get("required", []) if it not in value]
        known = schema["properties"]
        more = [f"{path} has a member {it}" for it in value if it not in known]
        return [*lost, *more, *(text for it in value if it in known for text in wrong_with(value[it], known[it], whole, f"{path}.{it}"))]
    return []
