"""Swollen input for `gqlreg pipe`: swollen.py NAME COUNT writes the requests; bench/swollen.sh runs them."""

import sys

SCHEMA = "type Query { q: Query x: Int y: Int s: String }"


def request(method, target, body):
    body = body.encode()
    return b"%s %s HTTP/1.1\r\nContent-Length: %d\r\n\r\n%s" % (
        method.encode(), target.encode(), len(body), body)


def document(name, text):
    return request("PUT", "/documents/" + name, text)


def chain(count):
    """Fragments, each of which spreads the next one."""
    links = "".join("fragment F%d on Query { x ...F%d }\n" % (n, n + 1) for n in range(1, count))
    return [document("d", "query Q { ...F1 }\n%sfragment F%d on Query { x }\n" % (links, count))]


def link(n, field="x"):
    """A fragment of a chain over 255 files, in a file of its own."""
    spread = " ...F%d" % (n + 1) if n < 255 else ""
    return document("f%03d" % n, "fragment F%d on Query { %s%s }" % (n, field, spread))


def links(count):
    """A chain over 255 files, put from its end; then edits of the last fragment, which all others reach."""
    return ([link(n) for n in range(255, 0, -1)] + [document("q", "query Q { ...F1 }")]
            + [link(255, "xy"[n % 2]) for n in range(count)])


def links_first(count):
    """So many fragments of the chain, put from its beginning: all before depend on each that is put."""
    return [link(n) for n in range(1, count + 1)]


def over(count):
    """Edits of an operation that spreads 40 fragments, each in a file of its own."""
    fragment = "fragment F%d on Query { a%d: x b%d: y q { s } }"
    spread = " ".join("...F%d" % n for n in range(40))
    return ([document("f%d" % n, fragment % (n, n, n)) for n in range(40)]
            + [document("q", "query Q%d { %s }" % (n, spread)) for n in range(count)])


def aliases(count):
    """Operations that spread a fragment of 4,000 response names."""
    fields = " ".join("a%d:x" % n for n in range(4000))
    operations = "".join("query O%d { ...F }\n" % n for n in range(count))
    return [document("d", "fragment F on Query { %s }\n%s" % (fields, operations))]


def names(count):
    """One set of fields, each with a response name of its own."""
    return [document("d", "{ %s }" % " ".join("a%d:x" % n for n in range(count)))]


def spreads(count):
    """One set that spreads so many fragments."""
    fragments = "".join("fragment F%d on Query { x }\n" % n for n in range(count))
    return [document("d", "{ %s }\n%s" % (" ".join("...F%d" % n for n in range(count)), fragments))]


def lower(count):
    """Fragments, each of which spreads all before it."""
    fragments = "".join("fragment F%d on Query { x %s }\n" % (
        n, " ".join("...F%d" % m for m in range(n))) for n in range(count))
    return [document("d", "query Q { ...F%d }\n%s" % (count - 1, fragments))]


def equal(count):
    """Operations that spread a fragment of 30,000 equal fields."""
    operations = "".join("query O%d { ...F }\n" % n for n in range(count))
    return [document("f", "fragment F on Query { %s}\n" % ("x " * 30000)), document("d", operations)]


def operations():
    return [document("o%d" % n, "query O%d { q { x y s } k%d: x }" % (n, n)) for n in range(250)]


def schema_edits(count):
    """Edits of a schema file that no operation depends on, among 250 operations in files of their own."""
    return operations() + [
        request("PUT", "/schema/t", "type Other%d { z: Int }" % n) for n in range(count)]


def document_edits(count):
    """Edits of one operation among 250 in files of their own."""
    return operations() + [
        document("o7", "query O7 { q { x y s } k%d: x }" % n) for n in range(count)]


def moved(count):
    """Edits that move a fragment which 210 operations spread, with 39 others."""
    fragment = "fragment F%d on Query { a%d: x b%d: y q { s } }"
    spread = " ".join("...F%d" % n for n in range(40))
    return (
        [document("f%d" % n, fragment % (n, n, n)) for n in range(40)]
        + [document("o%d" % n, "query O%d { %s }" % (n, spread)) for n in range(210)]
        + [document("f0", "# moved %d\n" % n + fragment % (0, 0, 0)) for n in range(count)])


def interfaces(count):
    """A type that lists an interface of 4,000 fields so many times."""
    fields = " ".join("a%x:Int" % n for n in range(4000))
    return [
        request("PUT", "/schema/i", "interface I { %s }" % fields),
        request("PUT", "/schema/t", "type T { %s }" % fields),
        request("PUT", "/schema/x", "extend type T implements " + "&".join(["I"] * count))]


def clashing(count):
    """An operation with so many fields of one response name, and as many others of that name: the
    square of it are faults."""
    return [document("d", "query Clashing { %s}" % ("a:x " * count + "a:y " * count))]


def faults(count):
    """That operation. An edit of another file then makes the report anew."""
    return clashing(count) + [document("e", "query Clean { x }")]


def beside(count):
    """Runs of an operation beside 320,356 faults of another one."""
    return faults(566) + [request("POST", "/run", '{"operationName":"Clean"}')] * count


def faulty(count):
    """Runs of an operation with one fault beside 320,356 of another one."""
    return faults(566) + [document("f", "query Faulty { z }")] + [
        request("POST", "/run", '{"operationName":"Faulty"}')] * count


def defaults(count):
    """A default value of so many empty objects, at an input type of so many required fields."""
    fields = " ".join("f%x:ID!" % n for n in range(count))
    field = "f(a: [I] = [%s]): Int" % ("{}" * count)
    return [request(
        "PUT", "/schema/i", "input I { %s } extend type Query { %s }" % (fields, field))]


def extended(fields):
    return request("PUT", "/schema/x", "extend type Query { %s }" % fields)


def called(count, of_type, argument):
    """A run of so many fields with this argument, where $v is a list of 131,000 integers."""
    fields = " ".join("a%d:f(a:%s)" % (n, argument) for n in range(count))
    return [
        extended("f(a: %s): Int" % of_type), request("PUT", "/data", '{"query":{"f":1}}'),
        document("d", "query Q($v: [Int]) { %s }" % fields),
        request("POST", "/run", '{"operationName":"Q","variables":{"v":[%s]}}' % (
            ",".join(["1"] * 131000)))]


def variables(count):
    """A run of so many fields, the argument of each of which is a variable of 131,000 integers."""
    return called(count, "[Int]", "$v")


def inner_variables(count):
    """A run of so many fields, the argument of each of which is a list of that variable."""
    return called(count, "[[Int]]", "[$v]")


def filters(count):
    """A run of so many fields, each of which filters a list of 32,000 objects by an argument."""
    fields = " ".join("a%x:f(a:2)" % n for n in range(count))
    return [
        extended("f(a: Int): Y"), request("PUT", "/schema/y", "scalar Y"),
        request("PUT", "/data", '{"query":{"f":[%s]}}' % ",".join(['{"a":1}'] * 32000)),
        document("d", "query Q { %s }" % fields), request("POST", "/run", '{"operationName":"Q"}')]


def inputs(count):
    """So many operations of a field that has an argument of each of 1,000 input types."""
    types = "".join("input I%d { a: Int }" % n for n in range(1000))
    arguments = " ".join("a%d: I%d" % (n, n) for n in range(1000))
    return [
        request("PUT", "/schema/i", types), extended("f(%s): Int" % arguments),
        document("d", "".join("query O%d { f }" % n for n in range(count)))]


def input_chain(count):
    """So many operations of a field with an argument that leads to 1,000 input types, one through
    the other."""
    types = "".join("input I%d { a: I%d }" % (n, n + 1) for n in range(999))
    return [
        request("PUT", "/schema/i", types + "input I999 { a: Int }"), extended("f(a: I0): Int"),
        document("d", "".join("query O%d { f }" % n for n in range(count)))]


def wide_inputs(count):
    """So many operations, in 16 files, of two fields that have arguments of 7,000 input types."""
    types = ["input I%x{a:Int}" % n for n in range(7000)]
    arguments = [" ".join("a%x:I%x" % (n, n) for n in some) for some in (range(3500), range(3500, 7000))]
    requests = [
        request("PUT", "/schema/i%d" % k, "".join(types[k * 2400:(k + 1) * 2400])) for k in range(3)]
    requests += [
        request("PUT", "/schema/%s" % f, "extend type Query{%s(%s):Int}" % (f, some))
        for f, some in zip("fg", arguments)]
    return requests + [
        document("d%d" % k, "".join("query O%d_%d{f g}" % (k, n) for n in range(count // 16)))
        for k in range(16)]


KINDS = {
    "chain": chain, "links": links, "links_first": links_first, "over": over, "aliases": aliases,
    "names": names, "spreads": spreads, "lower": lower, "equal": equal, "interfaces": interfaces,
    "schema_edits": schema_edits,
    "document_edits": document_edits, "moved": moved, "clashing": clashing, "faults": faults,
    "beside": beside, "faulty": faulty, "defaults": defaults,
    "variables": variables, "inner_variables": inner_variables,
    "filters": filters, "inputs": inputs, "input_chain": input_chain, "wide_inputs": wide_inputs,
}

if __name__ == "__main__":
    requests = KINDS[sys.argv[1]](int(sys.argv[2]))
    sys.stdout.buffer.write(request("PUT", "/schema/s", SCHEMA) + b"".join(requests))
