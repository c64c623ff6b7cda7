#!/usr/bin/env python3
"""Takes each answer of each scenario through tools/ddf-json, and looks whether its schema allows what it makes of it, and nothing else.

The scenarios are those of crates/ddf_rig/data, with what each command prints and its status. What `read` prints isn't taken, nor is output that
ends within a line, or is left open. Then one value after another is spoilt, and the schema has to refuse it.
"""
import copy
import importlib.machinery
import importlib.util
import io
import json
import re
import sys
from contextlib import redirect_stdout
from pathlib import Path
from typing import Any

sys.dont_write_bytecode = True
TOP = Path(__file__).resolve().parent.parent
TOOLS = TOP / "tools"
SCHEMA = json.loads((TOOLS / "ddf-json.schema.json").read_text(encoding="utf-8"))
KINDS = {"object": dict, "array": list, "string": str, "null": type(None), "boolean": bool, "integer": int}
KNOWN = {"$schema", "$defs", "title", "description", "type", "required", "additionalProperties", "properties", "items", "const", "enum", "pattern",
         "minimum", "maximum", "minItems", "maxItems", "oneOf", "$ref"}  # fmt: skip


def is_of(value: Any, kind: str) -> bool:
    return isinstance(value, KINDS[kind]) and not (kind == "integer" and isinstance(value, bool))


def allows(schema: dict[str, Any], value: Any) -> bool:
    """Whether a schema of the words above allows a value."""
    unknown = set(schema) - KNOWN
    if unknown:
        sys.exit(f"tools_json: the schema has words that aren't looked at: {unknown}")
    if "$ref" in schema:
        return allows(SCHEMA["$defs"][schema["$ref"].rsplit("/", 1)[1]], value)
    kinds = schema.get("type", [])
    kinds = [kinds] if isinstance(kinds, str) else kinds
    fits = not kinds or any(is_of(value, kind) for kind in kinds)
    fits = fits and ("const" not in schema or (value == schema["const"] and type(value) is type(schema["const"])))
    fits = fits and ("enum" not in schema or value in schema["enum"])
    fits = fits and ("oneOf" not in schema or sum(allows(one, value) for one in schema["oneOf"]) == 1)
    if fits and isinstance(value, str) and "pattern" in schema:
        fits = re.search(schema["pattern"], value) is not None
    if fits and isinstance(value, int) and not isinstance(value, bool):
        fits = schema.get("minimum", value) <= value <= schema.get("maximum", value)
    if fits and isinstance(value, list):
        fits = schema.get("minItems", 0) <= len(value) <= schema.get("maxItems", len(value))
        fits = fits and all(allows(schema.get("items", {}), item) for item in value)
    if fits and isinstance(value, dict):
        names = schema.get("properties", {})
        fits = set(schema.get("required", [])) <= set(value) and (schema.get("additionalProperties", True) or set(value) <= set(names))
        fits = fits and all(allows(names[name], item) for name, item in value.items() if name in names)
    return fits


def load_tool() -> Any:
    sys.path.insert(0, str(TOOLS))
    loader = importlib.machinery.SourceFileLoader("ddf_json", str(TOOLS / "ddf-json"))
    module = importlib.util.module_from_spec(importlib.util.spec_from_loader("ddf_json", loader))
    loader.exec_module(module)
    return module


def scenario_answers(page: Path) -> list[tuple[str, int, list[str]]]:
    """The commands of a file of scenarios, each with its status and its lines."""
    found: list[tuple[str, int, list[str]]] = []
    for line in page.read_text(encoding="utf-8").splitlines():
        if line.startswith("$"):
            words = re.sub(r"^\$\$? (.* -- )?|^\$\$.*", "", line).split()
            words = [word for word in words if not word.startswith("@")]
            found.append((words[0] if words else "", 0, []))
        elif not line or line.startswith(("#", "%")):
            # What stands behind these answers a `%` line, or is for readers.
            found.append(("", 0, []))
        elif found and (status := re.fullmatch(r"(.*)\[(\d)\]", line)):
            command, _, lines = found.pop()
            found.append(("" if status[1] else command, int(status[2]), lines))
        elif found:
            found[-1][2].append(line)
    return [answer for answer in found if answer[0] not in ("", "read") and not {"...", "?"} & set(answer[2]) and "{" not in "".join(answer[2])]


def made(tool: Any, status: int, command: str, lines: list[str]) -> Any:
    with redirect_stdout(io.StringIO()) as text:
        tool.tell(status, command, [], lines, [])
    return json.loads(text.getvalue())


def spoilt(value: Any) -> list[Any]:
    """The value with one of its parts spoilt: each part in turn."""
    if isinstance(value, dict):
        less = [{name: item for name, item in value.items() if name != left} for left in value]
        deeper = [{**value, name: other} for name, item in value.items() for other in spoilt(item)]
        return [*less, {**value, "more": 1}, *deeper]
    if isinstance(value, list):
        return ["", *([*value[:place], other, *value[place + 1 :]] for place, item in enumerate(value) for other in spoilt(item))]
    return [{}, [value], 1.5]


def main() -> None:
    tool = load_tool()
    # No scenario has an `exercise`, which takes no disks: this is the line of its page.
    kinds = {"exercise": made(tool, 0, "exercise", ["exercise writes 3 blocks 39 sum 3048960 sequence 19"])}
    count = 0
    scenarios = TOP / "crates/ddf_rig/data"
    for page in sorted(scenarios.rglob("*.txt")):
        if page.name == "wrong.txt":  # its answers are wrong on purpose
            continue
        for command, status, lines in scenario_answers(page):
            try:
                value = made(tool, status, command, lines)
            except (ValueError, IndexError, KeyError) as why:
                sys.exit(f"tools_json: {page.relative_to(scenarios)}: {command} [{status}] {lines} isn't taken: {why}")
            if not allows(SCHEMA, value):
                where = page.relative_to(scenarios)
                sys.exit(f"tools_json: {where}: the schema refuses what is made of {command} [{status}] {lines}: {json.dumps(value)}")
            count += 1
            for answer in value["answers"]:
                kinds.setdefault(answer["kind"], copy.deepcopy(value))
    wanted = {ref["$ref"].rsplit("/", 1)[1] for ref in SCHEMA["properties"]["answers"]["items"]["oneOf"]}
    if set(kinds) != wanted:
        sys.exit(f"tools_json: no scenario has an answer of the kinds {wanted - set(kinds)}")
    bad = [other for value in kinds.values() for other in spoilt(value)]
    for other in bad:
        if allows(SCHEMA, other):
            sys.exit(f"tools_json: the schema allows {json.dumps(other)}")
    print(f"tools_json: {count} answers of scenarios are what the schema says, of {len(kinds)} kinds; it refuses {len(bad)} that are spoilt")


main()
