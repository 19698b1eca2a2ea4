"""Random lists of changes by POST /edits; tests/batches.sh says what they are for and starts them.

The files and their texts are those of edits.py. A list changes up to six files at once, and at times the data.
"""

import json
import random
import sys

import edits

PROFILE = "october-2021"

MORE_DATA = [{"query": {"a": 5, "b": "v", "q": {"a": 6}}}, {"query": 1}, {"query": {"a": "x"}, "mutation": {}}]


def batch_of(generator):
    """A list of changes: texts of files by side and name, None for a removal, and data if it has some."""
    files = {}
    for file in generator.sample(edits.FILES, generator.randint(0, 6)):
        gone = generator.random() < 0.1
        files[file] = None if gone else edits.text_for(generator, file, PROFILE)
    return files, generator.choice(MORE_DATA) if generator.random() < 0.1 else None


def batches_of(generator):
    """Lists of changes, of which the first puts most of the files."""
    first = generator.sample(edits.FILES, generator.randint(6, 10))
    usual = {file: generator.choice(edits.USUAL[file]) for file in first}
    return [(usual, None)] + [batch_of(generator) for _ in range(generator.randint(2, 8))]


def body_of(batch):
    files, stored = batch
    body = {}
    for (side, name), text in files.items():
        body.setdefault(side, {})[name] = text
    if stored is not None:
        body["data"] = stored
    return json.dumps(body)


def changes_of(batch):
    """The changes in the order in which they are made: what each is of, and the request that makes it alone."""
    files, stored = batch
    ordered = sorted(files, key=lambda file: (file[0] != "schema", file[1]))
    changes = [("%s/%s" % file, edits.request_of((file, files[file]))) for file in ordered]
    if stored is not None:
        changes.append(("data", edits.request("PUT", "/data", json.dumps(stored))))
    return changes


def loads_of(files, stored):
    """The requests that put these files and data into a new service."""
    puts = [edits.request("PUT", "/data", stored)]
    return puts + [edits.request_of(item) for item in sorted(files.items())]


def one_by_one(program, files, stored, batch):
    """What making the changes one by one comes to on these files: what was refused first and how, or None;
    and then the answers to the questions."""
    loads, changes, asked = loads_of(files, stored), changes_of(batch), edits.questions()
    found = edits.answers(program, loads + [made for _, made in changes] + asked, PROFILE)[len(loads):]
    for (name, _), (status, body) in zip(changes, found):
        if status != 200:
            return (name, status, json.loads(body)), None
    return None, found[len(changes):]


def as_refused(refused):
    """The answer to a list of changes of which one is refused so alone."""
    name, status, body = refused
    body["errors"][0]["extensions"]["file"] = name
    return status, body


def compared(program, batches, tally):
    """What differs first between lists of changes and the same changes one by one."""
    asked = edits.questions()
    requests = [edits.request("PUT", "/data", edits.DATA)]
    for batch in batches:
        requests += [edits.request("POST", "/edits", body_of(batch))] + asked
    found = edits.answers(program, requests, PROFILE)
    files, stored, revision, before = {}, edits.DATA, 1, None
    for at, batch in enumerate(batches):
        first = 1 + at * (1 + len(asked))
        (status, body), given = found[first], found[first + 1:first + 1 + len(asked)]
        refused, wanted = one_by_one(program, files, stored, batch)
        if refused:
            tally.refused += 1
            if (status, json.loads(body)) != as_refused(refused):
                return at, "the refusal", (status, body), refused
            if before is not None and given != before:
                return at, "what a refused list leaves", given, before
        else:
            revision += 1
            faults = len(json.loads(wanted[0][1])["faults"])
            if json.loads(body) != {"revision": revision, "faults": faults}:
                return at, "the answer", body, (revision, faults)
            if list(map(edits.without_revision, given)) != list(map(edits.without_revision, wanted)):
                return at, "the state", given, wanted
            files = {file: text for file, text in {**files, **batch[0]}.items() if text is not None}
            stored = stored if batch[1] is None else json.dumps(batch[1])
            tally.note(given)
        before = given
    return None


def main():
    program, lists, seed = sys.argv[1], int(sys.argv[2]), int(sys.argv[3])
    edits.take_october()
    tally = edits.Tally()
    tally.refused = 0
    for number in range(lists):
        batches = batches_of(random.Random("%d %d" % (seed, number)))
        different = compared(program, batches, tally)
        if different:
            at, what, one, other = different
            print("list %d of seed %d: %s after batch %d" % (number, seed, what, at))
            for batch in batches[:at + 1]:
                print("  " + body_of(batch)[:2000])
            print("  at once:    %r\n  one by one: %r" % (one, other))
            sys.exit(1)
    print("%d lists of batches, %d accepted and %d refused, %d runs served: 0 differences"
          % (lists, tally.states, tally.refused, tally.served))


if __name__ == "__main__":
    main()
