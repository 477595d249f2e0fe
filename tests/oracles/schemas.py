"""Reads JSON Schema, as far as the schemas in share/schema use it."""

import json
import os

TOP = os.path.dirname(os.path.dirname(os.path.dirname(os.path.realpath(__file__))))
FOLDER = f"{TOP}/share/schema"
NAMES = ("trees", "places", "trail", "certificate", "check", "lines", "cases")
# What says nothing of a value.
SILENT = {"$schema", "$defs", "title", "description"}
TYPES = {"object": dict, "array": list, "string": str, "boolean": bool, "null": type(None), "integer": int}


def schema_of(name):
    with open(f"{FOLDER}/{name}.schema.json", encoding="utf-8") as file:
        return json.load(file)


def is_of(kind, value):
    return isinstance(value, TYPES[kind]) and not (kind == "integer" and isinstance(value, bool))


class Judge:
    """Judges values by a schema. What the schema says in a word that isn't known here is an error."""

    def __init__(self, schema):
        self.schema = schema
        self.words = {
            "$ref": self.refers, "type": lambda said, _, value: [] if is_of(said, value) else [f"{value!r} is no {said}"],
            "enum": lambda said, _, value: [] if value in said else [f"{value!r} is none of {said}"],
            "oneOf": self.is_one_of, "properties": self.has_properties, "required": self.has_required, "additionalProperties": lambda *_: [],
            "items": self.has_items, "prefixItems": self.begins, "minItems": lambda said, _, value: [] if len(value) >= said else ["too few"],
            "maxItems": lambda said, _, value: [] if len(value) <= said else ["too many"],
            "minimum": lambda said, _, value: [] if value >= said else [f"{value} is below {said}"],
            "maximum": lambda said, _, value: [] if value <= said else [f"{value} is above {said}"],
            "minLength": lambda said, _, value: [] if len(value) >= said else ["too short"],
        }  # fmt: skip

    def faults(self, value, schema=None):
        """What is wrong with the value. Keys that an object has beside those of the schema are wrong too, though it may let them be."""
        schema = self.schema if schema is None else schema
        if schema.get("type") and not is_of(schema["type"], value):
            return [f"{value!r} is no {schema['type']}"]
        return [fault for word, said in schema.items() if word not in SILENT for fault in self.words[word](said, schema, value)]

    def refers(self, said, _, value):
        return self.faults(value, self.schema["$defs"][said.removeprefix("#/$defs/")])

    def is_one_of(self, said, _, value):
        judged = [self.faults(value, it) for it in said]
        met = sum(not faults for faults in judged)
        return [] if met == 1 else [f"{met} of {len(said)} cases fit {value!r}"[:200]]

    def has_properties(self, said, _, value):
        return [fault for key, it in value.items() for fault in (self.faults(it, said[key]) if key in said else [f"the key {key} isn't named"])]

    def has_required(self, said, _, value):
        return [f"the key {key} is missing" for key in said if key not in value]

    def has_items(self, said, schema, value):
        rest = value[len(schema.get("prefixItems", [])) :]
        return (["too many"] if rest else []) if said is False else [fault for it in rest for fault in self.faults(it, said)]

    def begins(self, said, _, value):
        return [fault for it, one in zip(value, said) for fault in self.faults(it, one)]
