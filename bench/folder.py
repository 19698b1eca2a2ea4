"""Writes two folders of a team: bench/folder.py OUT. OUT/base has 60 schema files and 200 document
files; OUT/next is the same with one field renamed, which some operations read."""
import os, sys

TYPES_A_FILE = 10
FIELDS = 12


def schema_file(number, renamed):
    lines = []
    for at in range(TYPES_A_FILE):
        name = f"T{number}x{at}"
        lines.append(f"type {name} {{")
        lines.append("  id: ID!")
        for field in range(FIELDS):
            word = "renamed" if renamed and at == 0 and field == 0 else f"f{field}"
            lines.append(f"  {word}: String")
        other = f"T{(number * 7 + at) % 60}x{(at + 1) % TYPES_A_FILE}"
        lines.append(f"  next(first: Int = 10): [{other}!]")
        lines.append("}")
    lines.append(f"extend type Query {{ t{number}(id: ID!): T{number}x0 }}")
    return "\n".join(lines) + "\n"


def document_file(number):
    root = number % 60
    lines = [
        f"query Q{number}($id: ID!, $first: Int = 5) {{",
        f"  t{root}(id: $id) {{ ...F{number} next(first: $first) {{ id f1 f2 f3 }} }}",
        "}",
        f"fragment F{number} on T{root}x0 {{ id " + " ".join(f"f{i}" for i in range(FIELDS)) + " }",
    ]
    return "\n".join(lines) + "\n"


def write(folder, renamed):
    os.makedirs(f"{folder}/schema/types", exist_ok=True)
    os.makedirs(f"{folder}/documents/web", exist_ok=True)
    with open(f"{folder}/schema/query.graphql", "w") as out:
        out.write("type Query { version: String }\n")
    for number in range(59):
        with open(f"{folder}/schema/types/t{number}.graphql", "w") as out:
            out.write(schema_file(number, renamed and number == 3))
    with open(f"{folder}/schema/types/t59.graphql", "w") as out:
        out.write(schema_file(59, False))
    for number in range(200):
        with open(f"{folder}/documents/web/d{number}.graphql", "w") as out:
            out.write(document_file(number))


out = sys.argv[1]
write(f"{out}/base", False)
write(f"{out}/next", True)
