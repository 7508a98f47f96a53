#!/usr/bin/env python3
"""Holds the examples against docs/network.schema.json: tools/lint/schema.py. It wants Python's jsonschema, and does nothing
without it.

Each network of examples/index.txt that vcnet reads (no refusal 20 to 24) must be one by the schema. Of those that are refused for their
form it tells how many the schema refuses too: the others name what is not there, or give a name twice, which no schema tells.

Made with rattle-kit-13f, logic dac8208d650f15bf.
"""
import json
import os
import sys

try:
    import jsonschema
except ImportError:
    sys.exit(print("there is no jsonschema: nothing was held against the schema"))

ROOT = os.path.dirname(os.path.dirname(os.path.dirname(os.path.abspath(__file__))))


def rows():
    """Each network's text with the output that is wanted of it."""
    with open(f"{ROOT}/examples/index.txt", encoding="utf-8") as it:
        for line in it:
            _, wanted, network, *_ = line.split()
            if wanted == "-" or network == "-":
                continue
            with open(f"{ROOT}/examples/{wanted}", encoding="utf-8") as out, open(f"{ROOT}/examples/{network}", "rb") as text:
                yield network, text.read(), out.read()


def is_unread(output):
    return any(output.startswith(f"refused {n} ") for n in range(20, 25))


def main():
    with open(f"{ROOT}/docs/network.schema.json", encoding="utf-8") as it:
        schema = json.load(it)
    jsonschema.Draft202012Validator.check_schema(schema)
    validator = jsonschema.Draft202012Validator(schema)
    read, wrong, unread, told = set(), [], set(), set()
    for network, text, output in rows():
        try:
            fault = next(iter(validator.iter_errors(json.loads(text))), None)
        except ValueError:
            continue
        if is_unread(output):
            unread.add(network)
            told |= {network} if fault else set()
        else:
            read.add(network)
            wrong += [f"{network}: {fault.json_path}: {fault.message[:90]}"] if fault else []
    print("\n".join([*wrong, f"{len(read)} networks are read, {len(wrong)} of them wrong by the schema"]))
    print(f"{len(unread)} are refused for their form, {len(told)} of them by the schema too")
    return 1 if wrong else 0


if __name__ == "__main__":
    sys.exit(main())
