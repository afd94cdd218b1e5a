"""Checks messages against a copy of the published schema of the Debug Adapter Protocol: that of Debian's
python3-pydevd, which is generated from it. Newer fields, missing in this copy, are in LATER."""
import ast
import os

COPY = "/usr/lib/python3/dist-packages/_pydevd_bundle/_debug_adapter/pydevd_schema.py"
LATER = {("DisassembledInstruction", "presentationHint")}
# The fields that every message has.
HEAD = {"seq", "type", "body", "command", "event", "request_seq", "success", "message", "arguments"}
TYPES = {"string": str, "integer": int, "number": (int, float), "boolean": bool, "array": list, "object": dict}


def is_there():
    """Whether the copy exists."""
    return os.path.exists(COPY)


class Schema:
    """The definitions in the copy: the fields of each, which it requires, and which one a message has."""

    def __init__(self):
        self.properties, self.required, self.of = {}, {}, {}
        with open(COPY, encoding="utf-8") as source:
            tree = ast.parse(source.read())
        for node in tree.body:
            if isinstance(node, ast.ClassDef):
                self.add(node)

    def add(self, node):
        """Adds a definition."""
        for item in node.body:
            if isinstance(item, ast.Assign) and getattr(item.targets[0], "id", "") == "__props__":
                self.properties[node.name] = ast.literal_eval(item.value)
            if isinstance(item, ast.FunctionDef) and item.name == "__init__":
                words = [word.arg for word in item.args.args][1:]
                needed = set(words[:len(words) - len(item.args.defaults)])
                self.required[node.name] = needed - {"update_ids_from_dap", "kwargs", "seq"}
        for mark in node.decorator_list:
            if isinstance(mark, ast.Call) and mark.func.id.startswith("register_"):
                self.of[mark.func.id[9:], mark.args[0].value] = node.name

    def check(self, message):
        """What is wrong with a message, as lines."""
        kind = message.get("type")
        name = message.get("event") if kind == "event" else message.get("command")
        if kind == "response" and message.get("success") is False:
            needed = ("seq", "request_seq", "command", "message")
            bad = [f"error of {name}: lacks {key}" for key in needed if key not in message]
            error = message.get("body", {}).get("error")
            return bad + (self.of_definition("Message", error, "error") if error else [])
        definition = self.of.get((kind, name))
        if not definition:
            return [f"{kind} {name}: not in the protocol"]
        return self.of_definition(definition, message, f"{kind} {name}", HEAD)

    def of_definition(self, name, value, at, more=()):
        """What is wrong with an object, by its definition."""
        if not isinstance(value, dict):
            return [f"{at}: no object"]
        properties = self.properties[name]
        bad = [f"{at}: lacks {key}" for key in self.required[name] if key not in value]
        for key, part in value.items():
            if key in properties:
                bad += self.of_rule(properties[key], part, f"{at}.{key}")
            elif key not in more and (name, key) not in LATER and name != "LaunchRequestArguments":
                bad.append(f"{at}: {key} is not in {name}")
        return bad

    def of_rule(self, rule, value, at):
        """What is wrong with a value, by its rule."""
        kind = rule.get("type", rule.get("$ref", "").split("/")[-1] or None)
        kinds = kind if isinstance(kind, list) else [kind]
        if kind is None or value is None and "null" in kinds:
            return []
        if len(kinds) > 1:
            fits = any(isinstance(value, TYPES.get(one, ())) for one in kinds)
            return [] if fits else [f"{at}: {value!r} is none of {kinds}"]
        if kind in TYPES:
            return self.of_plain(rule, kind, value, at)
        properties = self.properties.get(kind)
        return self.of_definition(kind, value, at) if properties and "enum" not in properties else []

    def of_plain(self, rule, kind, value, at):
        """What is wrong with a value that has no definition."""
        if not isinstance(value, TYPES[kind]) or kind in ("integer", "number") and isinstance(value, bool):
            return [f"{at}: {value!r} is no {kind}"]
        if "enum" in rule and value not in rule["enum"]:
            return [f"{at}: {value!r} is none of {rule['enum']}"]
        if kind == "array":
            items = rule.get("items", {})
            return [line for i, part in enumerate(value) for line in self.of_rule(items, part, f"{at}[{i}]")]
        if kind == "object" and "properties" in rule:
            bad = [f"{at}: lacks {key}" for key in rule.get("required", []) if key not in value]
            for key, part in value.items():
                known = rule["properties"].get(key)
                bad += self.of_rule(known, part, f"{at}.{key}") if known else [f"{at}: {key} is unknown"]
            return bad
        return []
