"""Writes the requests that put schema files one by one: load.py FILES BYTES [EDITS [inputs | interfaces]]. Each
file has types of its own, each with a few fields, and the first one the query root. With `inputs` each file
has an enum and an input object, too, and its fields have arguments of both with default values. With
`interfaces` all types implement an interface of the first file. EDITS edits of one of the files follow, each
of which renames a field."""
import sys

files, size = int(sys.argv[1]), int(sys.argv[2])
edits = int(sys.argv[3]) if len(sys.argv) > 3 else 0
has_inputs = 'inputs' in sys.argv[4:]
has_interfaces = 'interfaces' in sys.argv[4:]
out = sys.stdout.buffer


def text_of(n):
    """The text of a file."""
    text = 'type Query { first: T0x0 }\n' if n == 0 else ''
    arguments = ''
    implements = ' implements Node' if has_interfaces else ''
    if has_interfaces and n == 0:
        text += 'interface Node { id: ID! }\n'
    if has_inputs:
        text += f'enum E{n} {{ A B C }} input I{n} {{ k: Int = 3 e: E{n} = A next: I{max(n - 1, 0)} }}\n'
        arguments = f', e: E{n} = B, i: I{n} = {{ k: 2 }}'
    at = 0
    while len(text) < size - 200:
        text += (f'type T{n}x{at}{implements} {{ id: ID! name: String parent: T{n}x{max(at - 1, 0)} '
                 f'others(first: Int = 10{arguments}): [T{n}x{at // 2}!] }}\n')
        at += 1
    return text


def put(n, text):
    """Writes the request that puts a file."""
    body = text.encode()
    out.write(f'PUT /schema/f{n} HTTP/1.1\r\nContent-Length: {len(body)}\r\n\r\n'.encode() + body)


for n in range(files):
    put(n, text_of(n))
for edit in range(edits):
    put(files // 2, text_of(files // 2).replace('name: String', f'name{edit}: String', 1))
