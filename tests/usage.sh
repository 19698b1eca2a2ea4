#!/bin/sh
# Tests of `gqlreg usage`, of manifests of persisted operations, and of a push that stops midway:
# tests/usage.sh. They take a few seconds. tests/usage_agrees.py tries `usage` on random folders. The last line is `N passed, M failed`.
here=$(cd "$(dirname "$0")" && pwd)
. "$here/common.sh"
echo "the tests of usage and manifests run, in a few seconds" >&2

mkdir -p store/schema store/documents/web
cat > store/schema/store.graphql <<'TEXT'
type Query {
  product(id: ID!): Product
  search(filter: Filter): [Item!]!
  version: String
}

interface Item {
  id: ID!
  title: String
}

type Product implements Item {
  id: ID!
  title: String
  price(in: Currency = EUR): Int
  maker: Maker
}

type Bundle implements Item {
  id: ID!
  title: String
  size: Int
}

type Maker {
  id: ID!
  name: String
}

union Thing = Product | Maker

enum Currency {
  EUR
  USD
}

enum Colour {
  RED
}

input Filter {
  text: String
  range: Range
}

input Range {
  from: Int
}

scalar Weight

directive @beta on FIELD

directive @old on FIELD
TEXT
cat > store/documents/web/product.graphql <<'TEXT'
query Product($id: ID!) {
  product(id: $id) {
    ...Card
    price(in: USD)
  }
}

fragment Card on Product {
  id
  title @beta
}
TEXT
cat > store/documents/web/search.graphql <<'TEXT'
query Search($filter: Filter) {
  search(filter: $filter) {
    id
  }
}
TEXT

# ---- the command line

has 'help of usage' 0 '^Says which stored operations and fragments read a part' "$gqlreg" usage --help
has 'all commands' 0 '^  gqlreg usage DIR PART' "$gqlreg" --help
has 'without a part' 2 '<PART>' "$gqlreg" usage store
has 'without a folder' 2 '<DIR>' "$gqlreg" usage
has 'a part and --unused' 2 'cannot be used with' "$gqlreg" usage store Product --unused
has 'two parts' 2 "unexpected argument 'Maker'" "$gqlreg" usage store Product Maker
has 'another format' 2 "invalid value 'sarif'" "$gqlreg" usage store Product --format sarif
has 'no folder' 2 'nowhere is missing' "$gqlreg" usage nowhere Product
mkdir empty
has 'no files' 2 'empty has no files' "$gqlreg" usage empty Product

# ---- who reads it

try 'a field, read by itself' 0 "$gqlreg" usage store Product.price <<'TEXT'
field Product.price is read by 1 operation and 0 fragments
  store/documents/web/product.graphql:1:1: query Product
TEXT
try 'a field, read by a fragment' 0 "$gqlreg" usage store Product.title <<'TEXT'
field Product.title is read by 1 operation and 1 fragment
  store/documents/web/product.graphql:1:1: query Product, by fragment Card
  store/documents/web/product.graphql:8:1: fragment Card
Without it, the schema has 1 fault
  store/schema/store.graphql:12:25: S12 `title`: Missing Fields: a type has no field for a field of an interface that it implements.
TEXT
try 'a type, read in both ways' 0 "$gqlreg" usage store Product <<'TEXT'
type Product is read by 1 operation and 1 fragment
  store/documents/web/product.graphql:1:1: query Product, and by fragment Card
  store/documents/web/product.graphql:8:1: fragment Card
Without it, the schema has 2 faults
  store/schema/store.graphql:2:21: S20 `Product`: Unknown Types: a reference names no type.
  store/schema/store.graphql:30:15: S20 `Product`: Unknown Types: a reference names no type.
TEXT
try 'a field of a root' 0 "$gqlreg" usage store Query.search <<'TEXT'
field Query.search is read by 1 operation and 0 fragments
  store/documents/web/search.graphql:1:1: query Search
TEXT
try 'the same field of an interface' 0 "$gqlreg" usage store Item.id <<'TEXT'
field Item.id is read by 1 operation and 0 fragments
  store/documents/web/search.graphql:1:1: query Search
TEXT
try 'a field that nobody reads' 0 "$gqlreg" usage store Product.maker <<'TEXT'
field Product.maker is read by no stored operation
TEXT
try 'a value of an enum' 0 "$gqlreg" usage store Currency.USD <<'TEXT'
enum value Currency.USD is read by 1 operation and 0 fragments
  store/documents/web/product.graphql:1:1: query Product
What clients send in variables is not stored, and so not seen.
TEXT
try 'a value that nobody gives' 0 "$gqlreg" usage store Currency.EUR <<'TEXT'
enum value Currency.EUR is read by no stored operation
What clients send in variables is not stored, and so not seen.
Without it, the schema has 1 fault
  store/schema/store.graphql:15:24: S18 `in`: Bad Default Values: a default value does not fit the type of its argument or input field.
TEXT
try 'a field of an input object that a variable may have' 0 "$gqlreg" usage store Range.from <<'TEXT'
input field Range.from is read by no stored operation
What clients send in variables is not stored, and so not seen.
Without it, the schema has 1 fault
  store/schema/store.graphql:46:7: S05 `Range`: Empty Types: a type that needs fields, enum values or members has none.
TEXT
printf 'query Near { search(filter: {range: {from: 1}}) { id } }\n' > store/documents/near.graphql
try 'a field of an input object in another' 0 "$gqlreg" usage store Range.from <<'TEXT'
input field Range.from is read by 1 operation and 0 fragments
  store/documents/near.graphql:1:1: query Near
What clients send in variables is not stored, and so not seen.
Without it, the schema has 1 fault
  store/schema/store.graphql:46:7: S05 `Range`: Empty Types: a type that needs fields, enum values or members has none.
TEXT
try 'an input object in another' 0 "$gqlreg" usage store Range <<'TEXT'
type Range is read by 1 operation and 0 fragments
  store/documents/near.graphql:1:1: query Near
Without it, the schema has 1 fault
  store/schema/store.graphql:43:10: S20 `Range`: Unknown Types: a reference names no type.
TEXT
rm store/documents/near.graphql
try 'the type of a variable' 0 "$gqlreg" usage store Filter <<'TEXT'
type Filter is read by 1 operation and 0 fragments
  store/documents/web/search.graphql:1:1: query Search
Without it, the schema has 1 fault
  store/schema/store.graphql:3:18: S20 `Filter`: Unknown Types: a reference names no type.
TEXT

# ---- arguments

try 'an argument' 0 "$gqlreg" usage store 'Product.price(in:)' <<'TEXT'
argument Product.price(in:) is read by 1 operation and 0 fragments
  store/documents/web/product.graphql:1:1: query Product
TEXT
try 'an argument that a variable gives' 0 "$gqlreg" usage store 'Query.search(filter:)' <<'TEXT'
argument Query.search(filter:) is read by 1 operation and 0 fragments
  store/documents/web/search.graphql:1:1: query Search
TEXT
cp -r store narrow
sed -i 's/price(in: USD)/price/' narrow/documents/web/product.graphql
try 'an argument that nobody gives' 0 "$gqlreg" usage narrow 'Product.price(in:)' <<'TEXT'
argument Product.price(in:) is read by no stored operation
TEXT
sed -i 's/directive @beta on FIELD/directive @beta(since: Int, by: String) on FIELD/' narrow/schema/store.graphql
sed -i 's/@beta/@beta(since: 1)/' narrow/documents/web/product.graphql
try 'an argument of a directive' 0 "$gqlreg" usage narrow '@beta(since:)' <<'TEXT'
directive argument @beta(since:) is read by 1 operation and 1 fragment
  narrow/documents/web/product.graphql:1:1: query Product, by fragment Card
  narrow/documents/web/product.graphql:8:1: fragment Card
TEXT
try 'another argument of it' 0 "$gqlreg" usage narrow '@beta(by:)' <<'TEXT'
directive argument @beta(by:) is read by no stored operation
TEXT
try 'an argument in another form' 2 "$gqlreg" usage store 'Product.price(in)' <<'TEXT'
`Product.price(in)` is no part of a schema: an argument is written as `Query.users(first:)`, that of a directive as `@beta(since:)`
TEXT
try 'an argument of a type' 2 "$gqlreg" usage store 'Product(in:)' <<'TEXT'
`Product(in:)` is no part of a schema: an argument is written as `Query.users(first:)`, that of a directive as `@beta(since:)`
TEXT
try 'no such argument' 2 "$gqlreg" usage store 'Product.price(at:)' <<'TEXT'
field `Product.price` of store has no argument `at`
TEXT
try 'an argument of no field' 2 "$gqlreg" usage store 'Product.cost(in:)' <<'TEXT'
type `Product` of store has no field `cost`
TEXT
try 'an argument of a field of no type' 2 "$gqlreg" usage store 'Shop.cost(in:)' <<'TEXT'
the schema of store has no type `Shop`
TEXT
try 'no such argument of a directive' 2 "$gqlreg" usage store '@beta(since:)' <<'TEXT'
directive `@beta` of store has no argument `since`
TEXT
try 'an argument of no directive' 2 "$gqlreg" usage store '@gone(since:)' <<'TEXT'
the schema of store has no directive `@gone`
TEXT

# ---- what a removal breaks

mkdir -p demands/schema
printf '%s\n' 'interface I { f(x: Int): Int }' 'type A implements I { f(x: Int): Int }' 'type Query { i: I }' 'directive @d(n: Int) on OBJECT' > demands/schema/s.graphql
printf 'extend type A @d(n: 1)\n' > demands/schema/t.graphql
mkdir -p members/schema members/documents
printf '%s\n' 'interface I { id: ID }' 'union U = A | B' 'type A implements I { id: ID }' 'type B { id: ID }' 'type Query { i: I }' > members/schema/s.graphql
printf 'query Q { i { ... on U { __typename } } }\n' > members/documents/q.graphql
try 'the only object that a condition lets through' 0 "$gqlreg" usage members A <<'TEXT'
type A is read by 1 operation and 0 fragments
  members/documents/q.graphql:1:1: query Q
Without it, the schema has 1 fault
  members/schema/s.graphql:2:11: S20 `A`: Unknown Types: a reference names no type.
TEXT
try 'a member that it does not need' 0 "$gqlreg" usage members B <<'TEXT'
type B is read by no stored operation
Operations may still get or send values of it.
Without it, the schema has 1 fault
  members/schema/s.graphql:2:15: S20 `B`: Unknown Types: a reference names no type.
TEXT
try 'a query root' 0 "$gqlreg" usage members Query <<'TEXT'
type Query is read by 1 operation and 0 fragments
  members/documents/q.graphql:1:1: query Q
Without it, the schema has 1 fault
  schema: S23 `query`: Missing Query Root: the schema has no query root operation type.
TEXT
try 'a field that an interface demands' 0 "$gqlreg" usage store Bundle.id <<'TEXT'
field Bundle.id is read by 1 operation and 0 fragments
  store/documents/web/search.graphql:1:1: query Search
Without it, the schema has 1 fault
  store/schema/store.graphql:19:24: S12 `id`: Missing Fields: a type has no field for a field of an interface that it implements.
TEXT
try 'an argument that an interface demands' 0 "$gqlreg" usage demands 'A.f(x:)' <<'TEXT'
argument A.f(x:) is read by no stored operation
Without it, the schema has 1 fault
  demands/schema/s.graphql:2:23: S13 `x`: Missing Arguments: an argument of the interface's field is missing, or its type differs.
TEXT
try 'an argument that a directive is given' 0 "$gqlreg" usage demands '@d(n:)' <<'TEXT'
directive argument @d(n:) is read by no stored operation
Without it, the schema has 1 fault
  demands/schema/t.graphql:1:18: S32 `n`: Bad Arguments: an argument of an applied directive is undefined, repeated or missing.
TEXT
try 'a directive that the schema applies' 0 "$gqlreg" usage demands @d <<'TEXT'
directive @d is read by no stored operation
Without it, the schema has 1 fault
  demands/schema/t.graphql:1:15: S29 `d`: Unknown Directives: an applied directive is not defined.
TEXT
try 'a type with its extension' 0 "$gqlreg" usage demands A <<'TEXT'
type A is read by no stored operation
TEXT
try 'a directive' 0 "$gqlreg" usage store @beta <<'TEXT'
directive @beta is read by 1 operation and 1 fragment
  store/documents/web/product.graphql:1:1: query Product, by fragment Card
  store/documents/web/product.graphql:8:1: fragment Card
TEXT
try 'a directive that nobody reads' 0 "$gqlreg" usage store @old <<'TEXT'
directive @old is read by no stored operation
TEXT
try 'an object of an interface' 0 "$gqlreg" usage store Bundle <<'TEXT'
type Bundle is read by no stored operation
Operations may still get or send values of it.
TEXT
try 'readers as JSON' 0 "$gqlreg" usage store Product.title --format json <<'TEXT'
{"part":"Product.title","kind":"field","readers":[{"kind":"query","name":"Product","path":"store/documents/web/product.graphql","line":1,"column":1,"by_itself":false,"through":["Card"]},{"kind":"fragment","name":"Card","path":"store/documents/web/product.graphql","line":8,"column":1,"by_itself":true,"through":[]}],"is_answered":false,"brought":[{"rule":"S12","title":"Missing Fields","about":"title","places":[{"path":"store/schema/store.graphql","line":12,"column":25}]}]}
TEXT
try 'no readers as JSON' 0 "$gqlreg" usage store @old --format json <<'TEXT'
{"part":"@old","kind":"directive","readers":[],"is_answered":false,"brought":[]}
TEXT
printf '{ version }\n' > store/documents/one.graphql
try 'an operation without a name' 0 "$gqlreg" usage store Query.version --format json <<'TEXT'
{"part":"Query.version","kind":"field","readers":[{"kind":"query","name":null,"path":"store/documents/one.graphql","line":1,"column":1,"by_itself":true,"through":[]}],"is_answered":false,"brought":[]}
TEXT
rm store/documents/one.graphql
printf 'query Faulty { product(id: 1) { gone price } }\n' > store/documents/faulty.graphql
try 'an operation with faults' 0 "$gqlreg" usage store Product.price <<'TEXT'
field Product.price is read by 2 operations and 0 fragments
  store/documents/faulty.graphql:1:1: query Faulty
  store/documents/web/product.graphql:1:1: query Product
TEXT
rm store/documents/faulty.graphql

# ---- what nobody reads

try 'what nobody reads' 0 "$gqlreg" usage store --unused <<'TEXT'
store/schema/store.graphql:4:3: field Query.version
store/schema/store.graphql:9:3: field Item.title
store/schema/store.graphql:16:3: field Product.maker
store/schema/store.graphql:19:6: type Bundle, of which operations may get or send values
store/schema/store.graphql:25:6: type Maker
store/schema/store.graphql:30:7: type Thing
store/schema/store.graphql:37:6: type Colour
store/schema/store.graphql:46:7: type Range, of which operations may get or send values
store/schema/store.graphql:50:8: type Weight
store/schema/store.graphql:54:12: directive @old
10 parts of the schema read by no stored operation
TEXT
mkdir -p small/schema small/documents
printf 'type Query { a: Int b: Int }\n' > small/schema/s.graphql
printf 'query A { a }\n' > small/documents/a.graphql
try 'what nobody reads, as JSON' 0 "$gqlreg" usage small --unused --format json <<'TEXT'
{"unread":[{"kind":"field","type":"Query","name":"b","path":"small/schema/s.graphql","line":1,"column":21,"is_answered":false}]}
TEXT
printf 'query A { a b }\n' > small/documents/a.graphql
try 'all is read' 0 "$gqlreg" usage small --unused <<'TEXT'
0 parts of the schema read by no stored operation
TEXT

# ---- no answer

try 'no such type' 2 "$gqlreg" usage store Shop <<'TEXT'
the schema of store has no type `Shop`
TEXT
try 'a field of no type' 2 "$gqlreg" usage store Shop.id <<'TEXT'
the schema of store has no type `Shop`
TEXT
try 'no such field' 2 "$gqlreg" usage store Product.weight <<'TEXT'
type `Product` of store has no field `weight`
TEXT
try 'no such value' 2 "$gqlreg" usage store Currency.GBP <<'TEXT'
type `Currency` of store has no value `GBP`
TEXT
try 'no such field of an input object' 2 "$gqlreg" usage store Filter.size <<'TEXT'
type `Filter` of store has no field `size`
TEXT
try 'a field of a scalar' 2 "$gqlreg" usage store Weight.grams <<'TEXT'
type `Weight` of store has no member `grams`
TEXT
try 'no such directive' 2 "$gqlreg" usage store @gone <<'TEXT'
the schema of store has no directive `@gone`
TEXT
try 'a field of a field' 2 "$gqlreg" usage store Product.maker.name <<'TEXT'
type `Product` of store has no field `maker.name`
TEXT
mkdir -p torn/schema
printf 'type Query { a: Strin b: In }\n' > torn/schema/s.graphql
try 'a schema with faults' 1 "$gqlreg" usage torn Query.a <<'TEXT'
the schema of torn has 2 faults, which gqlreg check shows: until then it is not said who reads what
TEXT
has 'what nobody reads of it' 1 'the schema of torn has 2 faults' "$gqlreg" usage torn --unused
printf 'type {\n' > torn/schema/s.graphql
try 'a file that is refused' 2 "$gqlreg" usage torn Query.a <<'TEXT'
torn/schema/s.graphql:1:6: syntax: unexpected token (201)
  type {
       ^
TEXT
printf 'type Query { a: Int } # \377\n' > torn/schema/s.graphql
try 'a file that is not UTF-8' 2 "$gqlreg" usage torn Query.a <<'TEXT'
torn/schema/s.graphql: the file is not UTF-8 (202)
TEXT
printf 'type Query { a: Int }\n' > torn/schema/s.graphql
printf '[]\n' > torn/data.json
try 'data that are refused' 2 "$gqlreg" usage torn Query.a <<'TEXT'
torn/data.json: data is not accepted (207)
TEXT

# ---- manifests

cat > apollo.json <<'TEXT'
{"format": "apollo-persisted-query-manifest", "version": 1, "operations": [
  {"id": "1a", "name": "Home", "type": "query",
   "body": "query Home {\n  product(id: 1) { ...Line price }\n}\nfragment Line on Product { id title }"},
  {"id": "2b", "name": "Top", "type": "query",
   "body": "fragment Line on Product {\n  id, title # the same\n}\nquery Top { product(id: 2) { ...Line } }"}
]}
TEXT
try 'a manifest of Apollo' 0 "$gqlreg" check store --manifest apollo.json <<'TEXT'
manifests: 2 operations and 1 fragment, as documents/Home.graphql, documents/Top.graphql, documents/shared-fragments.graphql
0 faults in 6 files
TEXT
printf '%s\n' '{"9f": "query Last { version }", "8e": "query Feed { search { id size: title } }"}' > relay.json
try 'a manifest of Relay' 0 "$gqlreg" check store --manifest relay.json <<'TEXT'
manifests: 2 operations and 0 fragments, as documents/Feed.graphql, documents/Last.graphql
0 faults in 5 files
TEXT
try 'both' 0 "$gqlreg" check store --manifest apollo.json --manifest relay.json <<'TEXT'
manifests: 4 operations and 1 fragment, as documents/Home.graphql, documents/Top.graphql, documents/Feed.graphql, documents/Last.graphql, documents/shared-fragments.graphql
0 faults in 8 files
TEXT
try 'who reads it of a manifest' 0 "$gqlreg" usage store Product.title --manifest apollo.json <<'TEXT'
manifests: 2 operations and 1 fragment, as documents/Home.graphql, documents/Top.graphql, documents/shared-fragments.graphql
field Product.title is read by 3 operations and 2 fragments
  store/documents/Home.graphql:1:1: query Home, by fragment Line
  store/documents/Top.graphql:1:1: query Top, by fragment Line
  store/documents/shared-fragments.graphql:1:1: fragment Line
  store/documents/web/product.graphql:1:1: query Product, by fragment Card
  store/documents/web/product.graphql:8:1: fragment Card
Without it, the schema has 1 fault
  store/schema/store.graphql:12:25: S12 `title`: Missing Fields: a type has no field for a field of an interface that it implements.
TEXT
cp -r store renamed
sed -i 's/price(in/cost(in/' renamed/schema/store.graphql
sed -i '/price/d' renamed/documents/web/product.graphql
try 'what a change breaks of a manifest' 1 "$gqlreg" check renamed --base store --manifest apollo.json <<'TEXT'
manifests: 2 operations and 1 fragment, as documents/Home.graphql, documents/Top.graphql, documents/shared-fragments.graphql
renamed/documents/Home.graphql:2:28: V04 `price`: Field Selections: the parent type has no field of this name. (in query Home)
    product(id: 1) { ...Line price }
                             ^
1 fault brought, 0 faults mended
operations that this breaks:
  renamed/documents/Home.graphql: query Home
TEXT

# refused NAME TEXT-OF-MANIFEST LINE: a manifest that is refused, with this line
refused() {
    printf '%s\n' "$2" > bad.json
    printf '%s\n' "$3" > line
    try "$1" 2 "$gqlreg" check store --manifest bad.json < line
}
refused 'not JSON' '{"1": ' 'bad.json is not JSON'
refused 'a list' '[]' 'bad.json is no manifest: it has neither `operations` nor an object of texts'
refused 'numbers for texts' '{"1": 1}' 'bad.json is no manifest: it has neither `operations` nor an object of texts'
refused 'operations without texts' '{"operations": [{"id": "1"}]}' 'bad.json is no manifest: it has neither `operations` nor an object of texts'
refused 'a text that is refused' '{"7": "query Q {\n  version )\n}"}' 'bad.json: operation 7, line 2, column 11: not accepted (111)'
refused 'an operation without a name' '{"7": "{ version }"}' 'bad.json: operation 7 has no name'
refused 'a type' '{"7": "type T { a: Int }"}' 'bad.json: operation 7 has a definition that is neither an operation nor a fragment'
refused 'one name twice' '{"7": "query Q { version }", "8": "query Q { version }"}' 'bad.json: operation 8 has the name Q, as operation 7 of bad.json'
refused 'fragments that differ' '{"7": "query A { ...F } fragment F on Query { version }", "8": "query B { ...F } fragment F on Query { v: version }"}' 'bad.json: operation 8: fragment F differs from that of operation 7 of bad.json'
printf '%s\n' '{"7": "query Home { version }"}' > bad.json
try 'one name in two manifests' 2 "$gqlreg" check store --manifest apollo.json --manifest bad.json <<'TEXT'
bad.json: operation 7 has the name Home, as operation 1a of apollo.json
TEXT
cp store/documents/web/search.graphql store/documents/Home.gql
try 'the name of a file of the folder' 2 "$gqlreg" check store --manifest apollo.json <<'TEXT'
store/documents/Home.gql has the name of documents/Home.graphql, which is made of operation 1a of apollo.json
TEXT
rm store/documents/Home.gql
printf 'query Home { version }\n' > store/documents/shared-fragments.graphql
try 'the name of the file of fragments' 2 "$gqlreg" check store --manifest apollo.json <<'TEXT'
store/documents/shared-fragments.graphql has the name of documents/shared-fragments.graphql, which is made of the fragments of manifests
TEXT
rm store/documents/shared-fragments.graphql
printf 'fragment Line on Product { id }\n' > store/documents/line.graphql
has 'a fragment of the folder, too' 1 '^store/documents/line.graphql:1:10: V11 `Line`' "$gqlreg" check store --manifest apollo.json
rm store/documents/line.graphql
has 'no manifest' 2 'nowhere.json is missing' "$gqlreg" check store --manifest nowhere.json
has 'a folder for a manifest' 2 'store is a folder' "$gqlreg" check store --manifest store
printf '%s\n' '{}' > bad.json
try 'a manifest without operations' 0 "$gqlreg" check store --manifest bad.json <<'TEXT'
manifests: 0 operations and 0 fragments
0 faults in 3 files
TEXT

# many COUNT: a manifest of Apollo of so many operations over three fragments
many() {
    awk -v count="$1" 'BEGIN {
        print "{\"format\": \"apollo-persisted-query-manifest\", \"version\": 1, \"operations\": ["
        for (n = 1; n <= count; n++) {
            part = n % 3
            printf "{\"id\": \"%d\", \"name\": \"Op%d\", \"type\": \"query\", \"body\": ", n, n
            printf "\"query Op%d { product(id: %d) { ...Part%d } }\\n", n, n, part
            printf "fragment Part%d on Product { id title }\"}%s\n", part, n < count ? "," : ""
        }
        print "]}"
    }'
}
many 128 > many.json
try 'the most operations with a file each' 0 "$gqlreg" check store --manifest many.json <<'TEXT'
manifests: 128 operations and 3 fragments, as documents/Op1.graphql, documents/Op2.graphql, documents/Op3.graphql, documents/Op4.graphql, documents/Op5.graphql, documents/Op6.graphql and 123 more
0 faults in 132 files
TEXT
many 129 > many.json
try 'one more, put together' 0 "$gqlreg" check store --manifest many.json <<'TEXT'
manifests: 129 operations and 3 fragments, as documents/operations-01.graphql, documents/operations-02.graphql, documents/operations-03.graphql, documents/operations-04.graphql, documents/operations-05.graphql, documents/operations-06.graphql and 91 more
0 faults in 100 files
TEXT
# (the names of the operations 69, 90 and 100 give one bucket)
printf '%s\n' 'query Own {' '  version' '}' > store/documents/operations-45.gql
try 'the name of a file of operations' 2 "$gqlreg" check store --manifest many.json <<'TEXT'
store/documents/operations-45.gql has the name of documents/operations-45.graphql, which is made of operations of manifests
TEXT
rm store/documents/operations-45.gql
has 'where an operation is' 0 '^  store/documents/operations-45.graphql:3:1: query Op90, by fragment Part0$' "$gqlreg" usage store Product.title --manifest many.json
long=$(awk 'BEGIN { while (n++ < 3000) printf "# a long remark\\\\n" }')
sed "s/product(id: 69)/$long&/; s/product(id: 90)/$long&/" many.json > long.json
has 'a bucket that fills a file' 0 '^  store/documents/operations-45-2.graphql:1:1: query Op90, by fragment Part0$' "$gqlreg" usage store Product.title --manifest long.json
has 'and its first file' 0 '^  store/documents/operations-45.graphql:1:1: query Op69, by fragment Part0$' "$gqlreg" usage store Product.title --manifest long.json
many 1000 > many.json
try 'a thousand operations' 0 "$gqlreg" check store --manifest many.json <<'TEXT'
manifests: 1000 operations and 3 fragments, as documents/operations-01.graphql, documents/operations-02.graphql, documents/operations-03.graphql, documents/operations-04.graphql, documents/operations-05.graphql, documents/operations-06.graphql and 91 more
0 faults in 100 files
TEXT
has 'who reads it of a thousand' 0 '^field Product.title is read by 1001 operations and 4 fragments$' "$gqlreg" usage store Product.title --manifest many.json

# ---- pushes

port=$((20000 + $$ % 20000))
to=127.0.0.1:$port
"$GQLREG" serve --port "$port" --connections 10000 > "$place/served" 2>&1 &
server_pid=$!
for _ in 1 2 3 4 5 6 7 8 9 10 11 12 13 14 15; do
    if grep -q listening "$place/served" 2> /dev/null; then break; fi
    sleep 0.2
done
try 'push with a manifest' 0 "$gqlreg" push store --to "$to" --manifest apollo.json <<'TEXT'
manifests: 2 operations and 1 fragment, as documents/Home.graphql, documents/Top.graphql, documents/shared-fragments.graphql
6 files put or removed: revision 6, 0 faults, 0 operations are not served
TEXT
try 'push of what changed in it' 0 "$gqlreg" push store --to "$to" --manifest relay.json <<'TEXT'
manifests: 2 operations and 0 fragments, as documents/Feed.graphql, documents/Last.graphql
5 files put or removed: revision 11, 0 faults, 0 operations are not served
TEXT
has 'push of a thousand operations' 0 '^99 files put or removed: revision 110, 0 faults, 0 operations are not served$' "$gqlreg" push store --to "$to" --manifest many.json
sed 's/id: 500) {/& price/' many.json > changed.json
has 'push of a thousand, one of which changed' 0 '^1 file put or removed: revision 111, 0 faults, 0 operations are not served$' "$gqlreg" push store --to "$to" --manifest changed.json
has 'push of few again' 0 '^99 files put or removed: revision 210, 0 faults, 0 operations are not served$' "$gqlreg" push store --to "$to" --manifest relay.json
# 251 documents of somebody else, so that there is room for one more
mkdir -p other/documents
n=0
while [ $n -lt 251 ]; do
    printf 'query Other%s { version }\n' $n > other/documents/o$n.graphql
    n=$((n + 1))
done
has 'documents of somebody else' 0 '^251 files put or removed: revision 461' "$gqlreg" push other --to "$to" --all
mkdir -p part/schema part/documents
printf 'query PartA { version }\n' > part/documents/a.graphql
printf 'query PartB { version }\n' > part/documents/b.graphql
printf 'extend type Query { part: Int }\n' > part/schema/part.graphql
try 'a push that stops' 2 "$gqlreg" push part --to "$to" --all <<'TEXT'
part: documents/b is refused: too many files (205)
TEXT
try 'what it has put' 0 sed -n '2,3p; s/^[0-9a-f]\{64\} //p' part/.gqlreg-push <<TEXT
server $to
revision 462
documents/a
TEXT
try 'the next push knows its own work' 2 "$gqlreg" push part --to "$to" <<'TEXT'
part: documents/b is refused: too many files (205)
TEXT
rm part/documents/b.graphql
try 'and goes on' 0 "$gqlreg" push part --to "$to" <<'TEXT'
1 file put or removed: revision 463, 0 faults, 0 operations are not served
TEXT
try 'to its end' 0 "$gqlreg" push part --to "$to" <<TEXT
nothing to push: $to is at revision 463
TEXT

printf '%s passed, %s failed\n' "$passed" "$failed"
[ "$failed" = 0 ]
