"""Whether docs/network.schema.json says what a network document is: it accepts the document of each example and those of
.ci/schema_accepted.jsonl, and refuses those of .ci/schema_refused.jsonl. Where a program is handed over, that has to answer
alike, and a refused document by the words that its line has.

The validator below knows the keywords that the schema uses, and no other: a keyword that is new there fails."""

import json
import re
import subprocess
import sys
from pathlib import Path

# Keywords that say something to a reader and nothing of a value.
NOTES = {"$schema", "$defs", "title", "description", "default", "examples"}


def is_integer(value):
    return not isinstance(value, bool) and (isinstance(value, int) or isinstance(value, float) and value.is_integer())


TYPES = {
    "object": lambda value: isinstance(value, dict),
    "array": lambda value: isinstance(value, list),
    "string": lambda value: isinstance(value, str),
    "boolean": lambda value: isinstance(value, bool),
    "integer": is_integer,
}


def same(a, b):
    """JSON's equality: true isn't 1."""
    return isinstance(a, bool) == isinstance(b, bool) and a == b


def number_at_least(value, least):
    return not is_integer(value) or value >= least


def number_at_most(value, most):
    return not is_integer(value) or value <= most


def matches(value, pattern):
    # `$` is the end of a text in a schema, and in Python also the position before a line feed there.
    return not isinstance(value, str) or re.search(pattern.replace("$", r"\Z"), value) is not None


def is_unique(value):
    return not isinstance(value, list) or len({json.dumps(item, sort_keys=True) for item in value}) == len(value)


# Keywords whose meaning depends on no other keyword: what they ask of a value.
SIMPLE = {
    "type": lambda value, name: TYPES[name](value),
    "const": same,
    "enum": lambda value, values: any(same(value, other) for other in values),
    "minimum": number_at_least,
    "maximum": number_at_most,
    "pattern": matches,
    "maxLength": lambda value, most: not isinstance(value, str) or len(value) <= most,
    "minItems": lambda value, least: not isinstance(value, list) or len(value) >= least,
    "maxItems": lambda value, most: not isinstance(value, list) or len(value) <= most,
    "uniqueItems": lambda value, asked: not asked or is_unique(value),
    "required": lambda value, names: not isinstance(value, dict) or all(name in value for name in names),
    "dependentRequired": lambda value, names: not isinstance(value, dict)
    or all(other in value for name in names if name in value for other in names[name]),
}

# Keywords that have a schema, or a list of schemas. `then` and `else` belong to `if`.
ONE_SCHEMA = {"not", "if", "then", "else", "additionalProperties", "items", "contains"}
MANY_SCHEMAS = {"anyOf", "oneOf"}


class Schema:
    def __init__(self, root):
        self.root = root
        self.check_words(root)

    def check_words(self, schema):
        """Fails at a keyword that the validator doesn't know, wherever it is."""
        if isinstance(schema, bool):
            return
        for word, inner in schema.items():
            if word in ("properties", "$defs"):
                inner = list(inner.values())
            elif word in SIMPLE or word in NOTES or word in ("$ref", "minContains", "maxContains"):
                continue
            elif word in ONE_SCHEMA:
                inner = [inner]
            elif word not in MANY_SCHEMAS:
                raise SystemExit(f"schema: the validator doesn't know the keyword {word}")
            for other in inner:
                self.check_words(other)

    def at(self, pointer):
        found = self.root
        for word in pointer[2:].split("/"):
            found = found[word]
        return found

    def accepts(self, value, schema=None):
        schema = self.root if schema is None else schema
        if isinstance(schema, bool):
            return schema
        return all(self.holds(value, schema, word) for word in schema if word not in NOTES)

    def holds(self, value, schema, word):
        """Whether a value passes one keyword of a schema."""
        inner = schema[word]
        if word in SIMPLE:
            return SIMPLE[word](value, inner)
        if word == "$ref":
            return self.accepts(value, self.at(inner))
        if word == "not":
            return not self.accepts(value, inner)
        if word == "anyOf":
            return any(self.accepts(value, other) for other in inner)
        if word == "oneOf":
            return sum(self.accepts(value, other) for other in inner) == 1
        if word == "if":
            return self.accepts(value, schema.get("then" if self.accepts(value, inner) else "else", True))
        if isinstance(value, dict) and word == "properties":
            return all(self.accepts(value[name], inner[name]) for name in inner if name in value)
        if isinstance(value, dict) and word == "additionalProperties":
            return all(self.accepts(value[name], inner) for name in value if name not in schema.get("properties", {}))
        if isinstance(value, list) and word == "items":
            return all(self.accepts(item, inner) for item in value)
        if isinstance(value, list) and word == "contains":
            count = sum(self.accepts(item, inner) for item in value)
            return schema.get("minContains", 1) <= count <= schema.get("maxContains", count)
        return True


def answer_of(program, document):
    """What the program says of a document without steps: its first line."""
    done = subprocess.run([program, "run"], input=json.dumps(document).encode(), stdout=subprocess.PIPE, check=False)
    return done.stdout.decode().partition("\n")[0]


def long_lists(more):
    """Documents with lists as long as they may be, or longer by `more`, and where the program says that of a longer one."""
    places = [{"id": f"0/GeneralIndex({i})", "native": []} for i in range(128 + more)]
    numbers = dict.fromkeys(["index", "major", "minor", "patch"], 0)
    pallets = [{**numbers, "index": i, "name": "", "module_name": ""} for i in range(64 + more)]
    pools = [{"first": "0/GeneralIndex(0)", "second": f"0/GeneralIndex({i + 1})", "fee": 0} for i in range(16 + more)]
    chains = [{"para": i} for i in range(17)]
    channels = [{"from": i, "to": j} for i in range(17) for j in range(17) if i != j]
    return [
        ("top 0", {"chains": [{"para": i} for i in range(63 + more)]}),
        ("top 0", {"chains": [{}] + [{"para": i} for i in range(63 + more)]}),
        ("top 0", {"chains": chains, "channels": channels[: 256 + more]}),
        ("chains 0 fields 0", {"chains": [{"assets": places}]}),
        ("chains 0 fields 0", {"chains": [{"pallets": pallets}]}),
        ("chains 0 fields 0", {"format": 2, "chains": [{"assets": places[:128], "pools": pools}]}),
    ]


def documents_to_accept(top):
    for path in sorted((top / "examples").glob("*.in")):
        yield f"the document of {path.relative_to(top)}", json.loads(path.read_text().partition("\n---\n")[0])
    for number, line in enumerate((top / ".ci/schema_accepted.jsonl").read_text().splitlines(), 1):
        yield f".ci/schema_accepted.jsonl:{number}", json.loads(line)
    for number, (_, document) in enumerate(long_lists(0)):
        yield f"long list {number}", document


def documents_to_refuse(top):
    for number, line in enumerate((top / ".ci/schema_refused.jsonl").read_text().splitlines(), 1):
        yield f".ci/schema_refused.jsonl:{number}", *json.loads(line)
    for number, (place, document) in enumerate(long_lists(1)):
        yield f"longer list {number}", f"LimitPassed at {place}", document


def main(words):
    top = Path(__file__).resolve().parent.parent
    schema = Schema(json.loads((top / "docs/network.schema.json").read_text()))
    program = words[0] if words else None
    wrong, accepted, refused = [], 0, 0
    for name, document in documents_to_accept(top):
        accepted += 1
        if not schema.accepts(document):
            wrong.append(f"the schema refuses {name}")
        if program and answer_of(program, document).startswith("network refused"):
            wrong.append(f"the program refuses {name}: {answer_of(program, document)}")
    for name, fault, document in documents_to_refuse(top):
        refused += 1
        if schema.accepts(document):
            wrong.append(f"the schema accepts {name}")
        if program and answer_of(program, document) != f"network refused: {fault}":
            wrong.append(f"{name} must be refused as {fault}, and the program says: {answer_of(program, document)}")
    for line in wrong:
        print(f"schema: {line}")
    by = "the schema and the program" if program else "the schema (no program)"
    print(f"schema: {accepted} documents accepted and {refused} refused by {by}, {len(wrong)} faults")
    return 1 if wrong or accepted == 0 or refused == 0 else 0


sys.exit(main(sys.argv[1:]))
