"""Whether a JSON value agrees with a JSON schema, by the keywords that docs/scene.schema.json uses. Another keyword is an error."""
import re

SILENT = {"$schema", "title", "description", "definitions", "then"}


def is_type(value, name):
    """Whether the value is of this type of JSON schemas, for which 1.0 is an integer and true none."""
    if name == "integer":
        return not isinstance(value, bool) and (isinstance(value, int) or isinstance(value, float) and value.is_integer())
    kinds = {"object": dict, "array": list, "string": str, "boolean": bool, "null": type(None)}
    return isinstance(value, kinds[name])


def is_number(value):
    return isinstance(value, (int, float)) and not isinstance(value, bool)


def same(value, wanted):
    return value == wanted and isinstance(value, bool) == isinstance(wanted, bool)


class Schema:
    """A schema with its definitions."""

    def __init__(self, root):
        self.root = root

    def fault(self, value):
        """The first place of a value that doesn't agree with the schema, as a line, or an empty one."""
        return next(self.judge(value, self.root, "$"), "")

    def agrees(self, value, schema):
        return next(self.judge(value, schema, "$"), None) is None

    def judge(self, value, schema, place):
        if isinstance(schema, bool):
            if not schema:
                yield f"{place}: may not stand here"
            return
        for keyword, wanted in schema.items():
            if keyword not in SILENT:
                yield from getattr(self, "judge_" + keyword.strip("$"))(value, wanted, schema, place)

    def judge_ref(self, value, wanted, schema, place):
        yield from self.judge(value, self.root["definitions"][wanted[len("#/definitions/"):]], place)

    def judge_type(self, value, wanted, schema, place):
        names = [wanted] if isinstance(wanted, str) else wanted
        if not any(is_type(value, name) for name in names):
            yield f"{place}: is none of {', '.join(names)}"

    def judge_enum(self, value, wanted, schema, place):
        if not any(same(value, one) for one in wanted):
            yield f"{place}: is none of {wanted}"

    def judge_const(self, value, wanted, schema, place):
        if not same(value, wanted):
            yield f"{place}: isn't {wanted}"

    def judge_minimum(self, value, wanted, schema, place):
        if is_number(value) and value < wanted:
            yield f"{place}: is below {wanted}"

    def judge_maximum(self, value, wanted, schema, place):
        if is_number(value) and value > wanted:
            yield f"{place}: is over {wanted}"

    def judge_maxLength(self, value, wanted, schema, place):
        if isinstance(value, str) and len(value) > wanted:
            yield f"{place}: has over {wanted} signs"

    def judge_pattern(self, value, wanted, schema, place):
        # In the expressions of schemas `$` is the end of the text alone.
        if isinstance(value, str) and not re.search(wanted.replace("$", r"\Z"), value):
            yield f"{place}: doesn't match {wanted}"

    def judge_maxItems(self, value, wanted, schema, place):
        if isinstance(value, list) and len(value) > wanted:
            yield f"{place}: has over {wanted} items"

    def judge_items(self, value, wanted, schema, place):
        # An array of a million numbers has few different ones.
        agreeing = set()
        for number, item in enumerate(value if isinstance(value, list) else []):
            if type(item) is not int or item not in agreeing:
                fault = next(self.judge(item, wanted, f"{place}[{number}]"), None)
                if fault:
                    yield fault
                elif type(item) is int:
                    agreeing.add(item)

    def judge_required(self, value, wanted, schema, place):
        for key in wanted if isinstance(value, dict) else []:
            if key not in value:
                yield f"{place}: lacks {key}"

    def judge_properties(self, value, wanted, schema, place):
        for key, below in wanted.items() if isinstance(value, dict) else []:
            if key in value:
                yield from self.judge(value[key], below, f"{place}.{key}")

    def judge_additionalProperties(self, value, wanted, schema, place):
        for key in value if isinstance(value, dict) else []:
            if key not in schema.get("properties", {}):
                yield from self.judge(value[key], wanted, f"{place}.{key}")

    def judge_propertyNames(self, value, wanted, schema, place):
        for key in value if isinstance(value, dict) else []:
            yield from self.judge(key, wanted, f"{place}.{key}")

    def judge_allOf(self, value, wanted, schema, place):
        for one in wanted:
            yield from self.judge(value, one, place)

    def judge_if(self, value, wanted, schema, place):
        if self.agrees(value, wanted):
            yield from self.judge(value, schema["then"], place)
