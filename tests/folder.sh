#!/bin/sh
# Tests of `gqlreg check` and `gqlreg push`: tests/folder.sh. They take some ten seconds. The last line
# is `N passed, M failed`.
here=$(cd "$(dirname "$0")" && pwd)
. "$here/common.sh"
echo "the tests of folders run, in some ten seconds" >&2

# ---- the command line

has 'help' 0 '^  gqlreg check DIR' "$gqlreg" --help
has 'help of check' 0 '--base <DIR>' "$gqlreg" check --help
has 'help of push' 0 '--fail-on-faults' "$gqlreg" push --help
has 'another option' 2 "unexpected argument '--bas'" "$gqlreg" check --bas team
has 'one word too many' 2 "unexpected argument 'team'" "$gqlreg" check team team
has 'check without a folder' 2 'required arguments' "$gqlreg" check
has 'push without a server' 2 'required arguments' "$gqlreg" push team
has 'another format' 2 "invalid value 'xml'" "$gqlreg" check team --format xml
has 'no folder' 2 'nowhere is missing' "$gqlreg" check nowhere
has 'a file for a folder' 2 'users.graphql is not a folder' "$gqlreg" check team/schema/users.graphql
has 'no base' 2 'nowhere is missing' "$gqlreg" check team --base nowhere
mkdir empty
has 'no files' 2 'has no files' "$gqlreg" check empty

# ---- files that are not sent

mkdir -p bad/schema
printf 'type Query { a: Int }\n' > 'bad/schema/a b.graphql'
has 'a bad name' 2 'a b.graphql has a name that is not accepted' "$gqlreg" check bad
mv 'bad/schema/a b.graphql' bad/schema/a.graphql
cp bad/schema/a.graphql bad/schema/a.gql
has 'a name twice' 2 'bad/schema/a.graphql has the name of bad/schema/a.gql' "$gqlreg" check bad
rm bad/schema/a.gql
mkdir bad/schema/folder.graphql
has 'a folder with the name of a file' 0 '^0 faults in 1 file' "$gqlreg" check bad
rmdir bad/schema/folder.graphql
ln -s nowhere bad/schema/gone.graphql
has 'a link to nothing' 2 'gone.graphql is missing' "$gqlreg" check bad
rm bad/schema/gone.graphql
mkdir bad/schema/more
cp bad/schema/a.graphql bad/schema/more/b.graphql
has 'a folder in a folder' 1 '^bad/schema/more/b.graphql:1:6: S01' "$gqlreg" check bad
printf 'type Other { a: Int }\n' > bad/schema/more.b.graphql
has 'a name twice, by a folder' 2 'bad/schema/more/b.graphql has the name of bad/schema/more.b.graphql' "$gqlreg" check bad
rm bad/schema/more.b.graphql
ln -s .. bad/schema/more/up
has 'a link that leads back' 2 'bad/schema' "$gqlreg" check bad
rm -r bad/schema/more
long=a123456789b123456789c123456789d123456789e123456789f123456789g1234
cp bad/schema/a.graphql bad/schema/$long.graphql
has 'a name of 65 characters' 1 '^2 faults in 2 files' "$gqlreg" check bad
has 'a name of 65 characters, of which a registry takes 64' 2 \
    'has a name that is not accepted: 1 to 64 letters' "$gqlreg" check bad --profile whole-numbers
mv bad/schema/$long.graphql bad/schema/${long%4}.graphql
has 'a name of 64 characters' 1 '^2 faults in 2 files' "$gqlreg" check bad --profile whole-numbers
rm bad/schema/${long%4}.graphql
mkdir -p bad/schema/$long/$long/$long
cp bad/schema/a.graphql bad/schema/$long/$long/$long/${long%???????}.gql
has 'a name of 256 characters' 2 'has a name that is not accepted: 1 to 255 letters' "$gqlreg" check bad
mv bad/schema/$long/$long/$long/${long%???????}.gql bad/schema/$long/$long/$long/${long%????????}.gql
has 'a name of 255 characters' 1 '^2 faults in 2 files' "$gqlreg" check bad
rm -r bad/schema/$long
# a user that cannot read all files
apart=
[ "$(id -u)" != 0 ] || apart='setpriv --reuid=65534 --regid=65534 --clear-groups'
if $apart true 2> /dev/null; then
    chmod 755 "$place"
    cp bad/schema/a.graphql bad/schema/hidden.graphql
    chmod 0 bad/schema/hidden.graphql
    # shellcheck disable=SC2086
    has 'a file that cannot be read' 2 'hidden.graphql cannot be read' $apart "$gqlreg" check bad
    rm -f bad/schema/hidden.graphql
    mkdir bad/documents
    chmod 0 bad/documents
    # shellcheck disable=SC2086
    has 'a folder that cannot be read' 2 'bad/documents cannot be read' $apart "$gqlreg" check bad
    chmod 755 bad/documents
    rmdir bad/documents
fi
mkdir -p many/documents
for n in 1 2 3 4 5 6 7 8 9 10 11 12 13 14 15 16 17; do
    for m in 1 2 3 4 5 6 7 8 9 10 11 12 13 14 15 16; do
        printf '{ a }' > many/documents/f$n-$m.graphql
    done
done
has 'too many files' 2 'many/documents has more than 256 files' "$gqlreg" check many --profile whole-numbers
has 'as many files as a large registry takes' 1 '^1 fault in 272 files$' "$gqlreg" check many
awk 'BEGIN { for (i = 0; i < 7000; i++) print "# a comment"; print "scalar Other" }' > bad/schema/long.graphql
has 'a long file' 2 'has more than 65,536 bytes' "$gqlreg" check bad --profile whole-numbers
has 'a file that is not too long for a large registry' 0 '^0 faults in 2 files$' "$gqlreg" check bad
cp bad/schema/long.graphql many/documents/long.graphql
has 'a long document' 2 'long.graphql has more than 65,536 bytes' "$gqlreg" check many

# ---- check

try 'no faults' 0 "$gqlreg" check team <<'TEXT'
0 faults in 2 files
TEXT
cp -r team changed
printf 'type Query { user(id: ID!): User }\ntype User { id: ID! fullName: String }\n' > changed/schema/users.graphql
try 'a fault' 1 "$gqlreg" check changed <<'TEXT'
changed/documents/profile.graphql:5:26: V04 `name`: Field Selections: the parent type has no field of this name. (in fragment Shown)
  fragment Shown on User { name }
                           ^
1 fault in 2 files
TEXT
try 'a fault as an annotation' 1 "$gqlreg" check --format github changed <<'TEXT'
::error file=changed/documents/profile.graphql,line=5,col=26,title=V04::V04 `name`: Field Selections: the parent type has no field of this name. (in fragment Shown)
::notice title=Operations::operations that are not served:%0Achanged/documents/profile.graphql: query Profile (by fragment Shown)
TEXT
try 'a report as it came' 1 "$gqlreg" check --format json changed <<'TEXT'
{"schemaIsFaulty":false,"faults":[{"rule":"V04","title":"Field Selections","about":"name","places":[{"path":"changed/documents/profile.graphql","line":5,"column":26}],"owner":{"kind":"fragment","name":"Shown","path":"changed/documents/profile.graphql","line":5,"column":1}}],"affected":[{"kind":"query","name":"Profile","path":"changed/documents/profile.graphql","line":1,"column":1,"through":"Shown"}]}
TEXT
try 'what a change brings' 1 "$gqlreg" check changed --base team <<'TEXT'
changed/documents/profile.graphql:5:26: V04 `name`: Field Selections: the parent type has no field of this name. (in fragment Shown)
  fragment Shown on User { name }
                           ^
1 fault brought, 0 faults mended
operations that this breaks:
  changed/documents/profile.graphql: query Profile (by fragment Shown)
TEXT
try 'what a change mends' 0 "$gqlreg" check team --base changed <<'TEXT'
0 faults brought, 1 fault mended
mended:
  changed/documents/profile.graphql:5:26: V04 `name`: Field Selections: the parent type has no field of this name. (in fragment Shown)
    fragment Shown on User { name }
                             ^
operations that this heals:
  changed/documents/profile.graphql: query Profile (by fragment Shown)
TEXT
mkdir -p names/schema names/documents
printf 'type Query { a(s: String): Int b: Int query: Query }\n' > names/schema/s.graphql
cat > names/documents/d.graphql <<'TEXT'
# query Comment { a }
query Block($s: String = """ { query No { "" \""" } """) @include(if: true) { a(s: $s) query { ...query } }
query,First{b}
query Second($query: String = "}#") { a(s: $query) ... on Query { ...Rest } }
fragment query on Query { query { b } }
fragment Rest on Query { a(s: "{") query { ...query } }
query
  Third
{ a }
TEXT
cp -r names renamed
printf 'type Query { a(s: String): Int query: Query }\n' > renamed/schema/s.graphql
has 'operations that reach it' 1 '^2 faults brought' "$gqlreg" check renamed --base names
# Block and Second have faults in the base, too, so that this does not break them
try 'their names' 0 tail -n 2 printed-before <<'TEXT'
operations that this breaks:
  renamed/documents/d.graphql: query First
TEXT
cp -r changed moved
{ printf '# one line more\n'; cat changed/documents/profile.graphql; } > moved/documents/profile.graphql
has 'a fault that only moved' 0 '^0 faults brought, 0 faults mended' "$gqlreg" check moved --base changed
printf '{\n  é: user(id: 1) { id }\n  "\n}\n' > changed/documents/cut.graphql
try 'a file that is refused' 2 "$gqlreg" check changed <<'TEXT'
changed/documents/cut.graphql:2:3: syntax: bad character (201)
    é: user(id: 1) { id }
    ^
TEXT
try 'a file that is refused, as an annotation' 2 "$gqlreg" check --format github changed <<'TEXT'
::error file=changed/documents/cut.graphql,line=2,col=3,title=201::syntax: bad character (201)
changed/documents/cut.graphql:2:3: syntax: bad character (201)
    é: user(id: 1) { id }
    ^
TEXT
has 'a base with a file that is refused' 2 '^changed/documents/cut.graphql:2:3: ' "$gqlreg" check team --base changed
rm changed/documents/cut.graphql
printf 'query Two {\n\tuser(id: "é", ida: 2) { id }\n}\n' > changed/documents/two.graphql
has 'a caret after other characters' 1 '^  	              ^' "$gqlreg" check changed
rm changed/documents/two.graphql
mkdir -p pair/schema pair/documents
printf 'type Query { x: Int y: Int }\n' > pair/schema/s.graphql
printf '{ a: x a: y }\n' > pair/documents/d.graphql
try 'a fault with two places' 1 "$gqlreg" check pair <<'TEXT'
pair/documents/d.graphql:1:3: V05 `a`: Field Selection Merging: two fields of one response name differ in name or arguments. (in an operation without a name)
  { a: x a: y }
    ^
  and pair/documents/d.graphql:1:8
  { a: x a: y }
         ^
1 fault in 2 files
TEXT
mkdir -p rootless/schema
printf 'type A { x: Int }\n' > rootless/schema/s.graphql
has 'a fault without a place' 1 '^schema: S23 `query`: ' "$gqlreg" check rootless
try 'a fault without a place, as an annotation' 1 "$gqlreg" check --format github rootless <<'TEXT'
::error title=S23::S23 `query`: Missing Query Root: the schema has no query root operation type.
TEXT
# `.` is no pattern: these are three names
mkdir -p dotted/schema
for name in a-b a.b axb; do printf 'type Query { a: Int }\n' > dotted/schema/$name.graphql; done
has 'names with dots' 1 ' in 3 files$' "$gqlreg" check dotted
# a schema with faults hides those of documents
cp -r changed hiding
printf 'type Query { user(id: ID!): User }\ntype User { id: ID! fullName: Strin }\n' > hiding/schema/users.graphql
has 'documents are not checked' 1 '^the documents are not checked until the schema has no fault' "$gqlreg" check hiding
try 'a fault that is hidden is not mended' 1 "$gqlreg" check hiding --base changed <<'TEXT'
the schema has faults: which operations this change breaks is not known
hiding/schema/users.graphql:2:31: S20 `Strin`: Unknown Types: a reference names no type.
  type User { id: ID! fullName: Strin }
                                ^
1 fault brought, 0 faults mended
no operation is served until the schema has no fault; nor are the documents checked
TEXT
has 'a base that hides its faults' 1 '^the schema of the base has faults' "$gqlreg" check changed --base hiding
unknown='the schema has faults: which operations this change breaks is not known'
# first LINE PATTERN FORMAT: that the documents are hidden is said first, in this line of the format
first() {
    "$gqlreg" check hiding --base changed --format "$3" > hiding.out
    has "hidden, first in $3" 0 "$2" sed -n "$1p" hiding.out
}
first 1 "^$unknown\$" text
first 1 "^::error title=Documents::$unknown\$" github
first 1 "^\*\*$unknown\*\*\$" markdown
first 5 "^<title>GraphQL: $unknown; " html
has 'hidden, before the heading of the page' 0 "^<p><strong>$unknown</strong></p>\$" grep -B1 '<h1>' hiding.out
first 1 '"hidden":true,"brought":\[.*"broken":null,"healed":null}' json
first 1 '"rules":\[{"id":"hidden",' sarif
has 'hidden, as the first result' 0 '"results":\[{"ruleId":"hidden","ruleIndex":0,"level":"error",' cat hiding.out
has 'hidden, as the first note' 0 "\"toolExecutionNotifications\":\[{\"level\":\"error\",\"message\":{\"text\":\"$unknown" cat hiding.out
has 'the other rules come after it' 0 '{"ruleId":"S20","ruleIndex":1,' cat hiding.out
has 'nothing is hidden' 1 '"hidden":false,"brought"' "$gqlreg" check changed --base team --format json
has 'two places as an annotation' 1 ' And pair/documents/d.graphql:1:8.$' "$gqlreg" check pair --format github
cp -r changed '50%, all'
has 'an annotation of a strange folder' 1 '^::error file=50%25%2C all/documents' "$gqlreg" check --format github '50%, all'

# ---- faults that are known again

mv moved/documents/profile.graphql moved/documents/people.graphql
has 'a fault in a renamed file' 0 '^0 faults brought, 0 faults mended' "$gqlreg" check moved --base changed
cat > moved/documents/people.graphql <<'TEXT'
query Profile($id: ID!) { user(id: $id) { id, ...Shown } }
fragment Shown on User
{
	# of a person
	name,
}
TEXT
has 'a fault that is laid out anew' 0 '^0 faults brought, 0 faults mended' "$gqlreg" check moved --base changed
printf 'fragment Shown on User { name }\n' > moved/documents/shown.graphql
printf 'query Profile($id: ID!) { user(id: $id) { id ...Shown } }\n' > moved/documents/people.graphql
has 'a fault that goes to another file' 0 '^0 faults brought, 0 faults mended' "$gqlreg" check moved --base changed
has 'a fault that comes from another file' 0 '^0 faults brought, 0 faults mended' "$gqlreg" check changed --base moved
printf 'fragment Shown on User { name name }\n' > moved/documents/shown.graphql
has 'a fault once more' 1 '^1 fault brought, 0 faults mended' "$gqlreg" check moved --base changed
mkdir -p whole/schema divided/schema
printf 'type Query { a: Int }\ninterface I { id: ID }\ntype A implements I { x: Int }\n' > whole/schema/s.graphql
printf 'type Query { a: Int }\n' > divided/schema/q.graphql
printf 'type A implements\n  & I\n{\n  x: Int\n}\n\ninterface I { id: ID }\n' > divided/schema/t.graphql
has 'a fault of a schema in another file' 0 '^0 faults brought, 0 faults mended' "$gqlreg" check divided --base whole
printf 'type B implements I { x: Int }\ntype A implements I { x: Int id: ID }\ninterface I { id: ID }\n' > divided/schema/t.graphql
has 'a fault of another type' 1 '^1 fault brought, 1 fault mended' "$gqlreg" check divided --base whole
mkdir -p lone/schema lone/documents
printf 'type Query { a: Int b: Int }\n' > lone/schema/s.graphql
printf '{ a }\n' > lone/documents/one.graphql
cp -r lone left
printf 'type Query { b: Int }\n' > left/schema/s.graphql
mv left/documents/one.graphql left/documents/other.graphql
has 'an operation without a name in a renamed file' 1 'left/documents/other.graphql: an operation without a name' "$gqlreg" check left --base lone
has 'it is healed' 0 'left/documents/other.graphql: an operation without a name' "$gqlreg" check lone --base left

# ---- the status against a base

mkdir -p linked/schema linked/documents
printf 'type Query { a: Int }\n' > linked/schema/s.graphql
printf 'query Q { a }\nquery R { ...F }\nfragment F on Query { zz }\n' > linked/documents/d.graphql
cp -r linked relinked
printf 'query Q { a ...F }\nquery R { ...F }\nfragment F on Query { zz }\n' > relinked/documents/d.graphql
has 'an operation that breaks by a fault that was there' 1 '^  relinked/documents/d.graphql: query Q (by fragment F)' "$gqlreg" check relinked --base linked
has 'an operation that is healed, with its fault still there' 0 '^0 faults brought, 0 faults mended' "$gqlreg" check linked --base relinked
# each schema has a fault of a type that is not there: what the change does to the documents is not known
mkdir -p shown/schema shown/documents
printf 'type Query {\n  a: Int\n  f: Gone\n}\n' > shown/schema/s.graphql
printf 'query Q { a }\n' > shown/documents/d.graphql
cp -r shown unseen
printf 'type Query {\n  f: Gone\n}\n' > unseen/schema/s.graphql
has 'documents that the schema hides' 1 '^0 faults brought, 0 faults mended' "$gqlreg" check unseen --base shown
printf 'query Q { b }\n' > unseen/documents/d.graphql
cp shown/schema/s.graphql unseen/schema/s.graphql
has 'a schema with faults that is the same' 0 '^0 faults brought, 0 faults mended' "$gqlreg" check unseen --base shown
mv unseen/schema/s.graphql unseen/schema/t.graphql
has 'a schema with faults of another name' 1 '^0 faults brought, 0 faults mended' "$gqlreg" check unseen --base shown
rm -r unseen/documents
has 'no documents to hide' 0 '^0 faults brought, 0 faults mended' "$gqlreg" check unseen --base shown
printf 'type Query { b: Int }\n' > unseen/schema/t.graphql
cp -r shown/documents unseen/documents
has 'only the schema of the base has faults' 1 '^1 fault brought, 1 fault mended' "$gqlreg" check unseen --base shown

# ---- definitions of the type system in documents, and all files that are refused

printf 'type Astray { a: Int }\n' > lone/documents/astray.graphql
has 'a type in a document owns its fault' 1 '"rule":"V01",.*"owner":{"kind":[^}]*"name":"Astray"' "$gqlreg" check lone --format json
cp -r team cut
printf 'type Query { a: Int\n' > cut/schema/a.graphql
printf '{ é }\n' > cut/documents/b.graphql
printf '{ a\n' > cut/documents/c.graphql
try 'all files that are refused' 2 "$gqlreg" check cut <<'TEXT'
cut/schema/a.graphql:2:1: syntax: unexpected token (201)
  
  ^
cut/documents/b.graphql:1:3: syntax: bad character (201)
  { é }
    ^
cut/documents/c.graphql:2:1: syntax: unexpected token (201)
  
  ^
TEXT
try 'all files that are refused, as annotations' 2 "$gqlreg" check cut --format github <<'TEXT'
::error file=cut/schema/a.graphql,line=2,col=1,title=201::syntax: unexpected token (201)
::error file=cut/documents/b.graphql,line=1,col=3,title=201::syntax: bad character (201)
::error file=cut/documents/c.graphql,line=2,col=1,title=201::syntax: unexpected token (201)
cut/schema/a.graphql:2:1: syntax: unexpected token (201)
  
  ^
cut/documents/b.graphql:1:3: syntax: bad character (201)
  { é }
    ^
cut/documents/c.graphql:2:1: syntax: unexpected token (201)
  
  ^
TEXT
has 'and of a base' 2 '^cut/documents/c.graphql:' "$gqlreg" check team --base cut

# ---- a definition of the type system in a document file

cp -r team typed
printf 'query Q($id: ID!) { user(id: $id) { id } }\nextend type User { age: Int }\n' > typed/documents/typed.graphql
has 'its owner in words' 1 '^typed/documents/typed.graphql:2:1: V01 `User`: .* (in type extension User)$' "$gqlreg" check typed
has 'its owner in JSON' 1 '"owner":{"kind":"type extension","name":"User","path":"typed/documents/typed.graphql","line":2,"column":1}' "$gqlreg" check typed --format json

# ---- many faults: annotations and a summary

mkdir -p crowd/schema crowd/documents
printf 'type Query {\n  a: Int\n  b: Int\n}\n' > crowd/schema/s.graphql
{
    printf 'query Broken { gone ...F }\nfragment F on Query { a }\n'
    awk 'BEGIN { for (i = 0; i < 30; i++) print "fragment U" i " on Query { other" i " }" }'
} > crowd/documents/d.graphql
"$gqlreg" check crowd --format github > crowd.out
try 'ten annotations of faults' 0 grep -c '^::error' crowd.out <<'TEXT'
10
TEXT
has 'first that of a fault that breaks an operation' 0 'V04 `gone`' sed -n 1p crowd.out
has 'and how many there are more' 0 '^::notice title=More::and 51 more faults$' sed -n 11p crowd.out
has 'and which operations' 0 '^::notice title=Operations::' sed -n 12p crowd.out
cp -r crowd crowd-before
printf 'type Query {\n  a: Int\n  b: Int\n  gone: Int\n  other0: Int\n}\n' > crowd-before/schema/s.graphql
printf 'type Query {\n  a: Int\n  b: Int\n  other0: Int\n  c: Int\n}\n' > crowd/schema/s.graphql
try 'the line where the schema changed' 1 "$gqlreg" check crowd --base crowd-before --format github <<'TEXT'
::warning file=crowd/schema/s.graphql,line=4,title=Changed::this change breaks 1 operation: query Broken
::error file=crowd/documents/d.graphql,line=1,col=16,title=V04::V04 `gone`: Field Selections: the parent type has no field of this name. (in query Broken)
::notice title=Operations::operations that this breaks:%0Acrowd/documents/d.graphql: query Broken
TEXT
try 'no line where it does no harm' 0 "$gqlreg" check crowd-before --base crowd --format github < /dev/null
mkdir -p long-page/schema long-page/documents
printf 'type Query { a: Int }\n' > long-page/schema/s.graphql
awk 'BEGIN { for (i = 0; i < 500; i++) print "query Q" i " { b }" }' > long-page/documents/d.graphql
"$gqlreg" check long-page --format markdown > long-page.out
has 'a summary has at most 65,536 bytes' 0 '^yes$' sh -c 'size=$(wc -c < long-page.out); [ "$size" -le 65536 ] && [ "$size" -gt 65000 ] && echo yes'
has 'and says how much is left out' 0 '^and [0-9]* more faults, [0-9]* more operations$' tail -n 1 long-page.out
has 'with no section left open' 0 '^</details>$' sh -c 'tail -n 3 long-page.out | head -n 1'
if command -v python3 > /dev/null 2>&1; then
    has 'which with what is there is all of it' 0 '^500 500$' python3 -c '
import re
text = open("long-page.out").read()
faults, operations = map(int, re.search("and (\d+) more faults?, (\d+) more operations?\n$", text).groups())
print(faults + text.count("\n- <code>long-page/documents/d.graphql:"), operations + text.count("\n- <code>query Q"))'
fi

# ---- data

printf '{"query": {"user": [{"id": "7", "name": "Ann"}]}}\n' > team/data.json
try 'data' 0 "$gqlreg" check team <<'TEXT'
0 faults in 3 files
TEXT
cp -r team spoilt
printf '{"query": {"user": [1.5]}}\n' > spoilt/data.json
try 'data that are refused' 2 "$gqlreg" check spoilt --profile whole-numbers <<'TEXT'
spoilt/data.json: data is not accepted (207)
TEXT
awk 'BEGIN { for (i = 0; i < 30000; i++) print "         " }' > spoilt/data.json
has 'long data' 2 'data.json has more than 262,144 bytes' "$gqlreg" check spoilt --profile whole-numbers

# ---- colours

if script -qec true /dev/null > /dev/null 2>&1; then
    has 'colours on a terminal' 0 "$(printf '\033\\[31m')" env -u NO_COLOR TERM=xterm script -qc "$gqlreg check changed" /dev/null
    has 'none with NO_COLOR' 1 '^[^\033]*$' env TERM=xterm script -qec "$gqlreg check changed" /dev/null
fi
if env -u NO_COLOR "$gqlreg" check changed | grep -q "$(printf '\033')"; then
    failed=$((failed + 1))
    echo 'colours in a pipe'
else
    passed=$((passed + 1))
fi

# ---- the other formats

has 'markdown' 1 'V04' "$gqlreg" check changed --format markdown
has 'SARIF' 1 '"version":"2.1.0"' "$gqlreg" check changed --format sarif
try 'a page in a file' 1 "$gqlreg" check changed --format html --output page.html < /dev/null
has 'the page' 0 'Field Selections' cat page.html
try 'no script in it' 1 grep '<script' page.html < /dev/null
has 'a file that cannot be written' 2 'nowhere/page.html cannot be written' "$gqlreg" check team --format html --output nowhere/page.html
printf '{ user(id: "<&") { id } }\n' > changed/documents/html.graphql
try 'a page of strange text' 1 "$gqlreg" check changed --format html --output page.html < /dev/null
try 'it is written as text' 1 grep '"<&"' page.html < /dev/null
rm changed/documents/html.graphql
if command -v python3 > /dev/null 2>&1; then
    "$gqlreg" check changed --base team --format json > page.json
    "$gqlreg" check changed --base team --format sarif > page.sarif
    try 'SARIF is SARIF' 0 python3 "$here/sarif.py" page.sarif <<'TEXT'
1 results, 0 mistakes
TEXT
    "$gqlreg" check changed --format sarif > page.sarif
    try 'SARIF without a base' 0 python3 "$here/sarif.py" page.sarif <<'TEXT'
1 results, 0 mistakes
TEXT
    has 'its version' 0 "\"name\":\"gqlreg\",\"version\":\"$("$gqlreg" --version | sed 's/^gqlreg //')\"" cat page.sarif
    cp page.sarif before.sarif
    cp -r changed later
    { printf '# one line more\n'; cat changed/documents/profile.graphql; } > later/documents/renamed.graphql
    rm later/documents/profile.graphql
    "$gqlreg" check later --format sarif > page.sarif
    try 'a fingerprint stays where lines and files move' 0 python3 -c '
import json
def prints(path):
    return [r["partialFingerprints"] for r in json.load(open(path))["runs"][0]["results"]]
print(prints("before.sarif") == prints("page.sarif"), len(prints("page.sarif")))' <<'TEXT'
True 1
TEXT
    "$gqlreg" check crowd --format sarif > page.sarif
    has 'each result has a fingerprint of its own' 0 ' 0 mistakes$' python3 "$here/sarif.py" page.sarif
    "$gqlreg" check hiding --base changed --format sarif > page.sarif
    try 'SARIF with hidden documents' 0 python3 "$here/sarif.py" page.sarif <<'TEXT'
2 results, 0 mistakes
TEXT
    has 'JSON is JSON' 0 '^1 1 0$' python3 -c 'import json; j = json.load(open("page.json")); print(len(j["brought"]), len(j["broken"]), len(j["mended"]))'
fi

# ---- a server

port=$((20000 + $$ % 20000))
to=127.0.0.1:$port

# start: a server with an empty registry
start() {
    "$GQLREG" serve --port "$port" --connections 10000 > "$place/served" 2>&1 &
    server_pid=$!
    for _ in 1 2 3 4 5 6 7 8 9 10 11 12 13 14 15; do
        if grep -q listening "$place/served" 2> /dev/null; then return; fi
        sleep 0.2
    done
}

# a port that another program has, for many connections at one time and for one
if command -v python3 > /dev/null; then
    python3 -c 'import socket, sys, time
s = socket.socket(); s.bind(("127.0.0.1", int(sys.argv[1]))); s.listen(); print("held", flush=True); time.sleep(60)' "$port" > held &
    server_pid=$!
    for _ in 1 2 3 4 5 6 7 8 9 10 11 12 13 14 15; do
        if grep -q held held 2> /dev/null; then break; fi
        sleep 0.2
    done
    try 'a taken port' 1 "$gqlreg" serve --port "$port" --connections 1 <<TEXT
port $port of 127.0.0.1 cannot be listened to: address in use
TEXT
    try 'a taken port, one connection at a time' 1 "$gqlreg" serve --port "$port" --connections 1 --at-once 1 <<TEXT
port $port of 127.0.0.1 cannot be listened to: address in use
TEXT
    kill "$server_pid"
    wait "$server_pid" 2> /dev/null
    server_pid=
    rm held
fi

rm -f team/data.json
try 'push to no server' 5 "$gqlreg" push team --to "$to" <<'TEXT'
no answer from the server, or not one of a registry
TEXT
start
try 'push' 0 "$gqlreg" push team --to "$to" <<'TEXT'
2 files put or removed: revision 2, 0 faults, 0 operations are not served
TEXT
try 'push again' 0 "$gqlreg" push team --to "$to" <<TEXT
nothing to push: $to is at revision 2
TEXT
cp changed/schema/users.graphql team/schema/users.graphql
has 'push of faults that is to fail' 1 'has 1 fault' "$gqlreg" push team --to "$to" --fail-on-faults
try 'push what changed' 0 "$gqlreg" push team --to "$to" <<'TEXT'
1 file put or removed: revision 3, 1 fault, 1 operation of this folder is not served
TEXT
printf 'type Query { user(id: ID!): User }\ntype User { id: ID! name: String! }\n' > team/schema/users.graphql
printf '{"query": {"user": [{"id": "7", "name": "Ann"}, {"id": "8"}]}}\n' > team/data.json
try 'push with data' 0 "$gqlreg" push team --to "$to" <<'TEXT'
2 files put or removed: revision 5, 0 faults, 0 operations are not served
TEXT
rm team/data.json
try 'push that empties the data' 0 "$gqlreg" push team --to "$to" <<'TEXT'
1 file put or removed: revision 6, 0 faults, 0 operations are not served
TEXT
cp team/schema/users.graphql users.graphql
printf 'type Query { user(id: ID!): User }\ntype User { id: ID! name: Strin! }\n' > team/schema/users.graphql
try 'push of a schema with faults' 0 "$gqlreg" push team --to "$to" <<'TEXT'
1 file put or removed: revision 7, the schema has 1 fault: no operation is served
TEXT
mv users.graphql team/schema/users.graphql
try 'push that mends it' 0 "$gqlreg" push team --to "$to" <<'TEXT'
1 file put or removed: revision 8, 0 faults, 0 operations are not served
TEXT
rm team/documents/profile.graphql
try 'push a removal' 0 "$gqlreg" push team --to "$to" <<'TEXT'
1 file put or removed: revision 9, 0 faults, 0 operations are not served
TEXT
curl -s -X PUT --data-binary 'type Other { a: Int }' "http://$to/schema/other" > /dev/null
has 'push after an edit of somebody else' 3 'at revision 10, and the last push left 9: somebody else' "$gqlreg" push team --to "$to"
has 'which says that the folder has not changed' 3 '^the folder is as it was at the last push$' "$gqlreg" push team --to "$to"
printf 'query Q { user(id: 1) { id } }\n' > team/documents/new.graphql
has 'or which files have' 3 '^in the folder, since the last push:$' "$gqlreg" push team --to "$to"
has 'a new one' 3 '^  documents/new has changed$' "$gqlreg" push team --to "$to"
rm team/documents/new.graphql
mv team/schema/users.graphql users.graphql
printf 'type Query { a: Int }\n' > team/schema/root.graphql
has 'one that is gone' 3 '^  schema/users is gone$' "$gqlreg" push team --to "$to"
rm team/schema/root.graphql
mv users.graphql team/schema/users.graphql
has 'which put nothing' 0 '^{"revision":10,"faults":..}$' curl -s "http://$to/report"
try 'push all the same' 0 "$gqlreg" push team --to "$to" --force <<'TEXT'
1 file put or removed: revision 11, 0 faults, 0 operations are not served
TEXT
has 'push with a state elsewhere' 3 'it is not known what was pushed last' "$gqlreg" push team --to "$to" --state pushed
try 'push of all files' 0 "$gqlreg" push team --to "$to" --state pushed --all <<'TEXT'
1 file put or removed: revision 12, 0 faults, 0 operations are not served
TEXT
cp team/schema/users.graphql team/schema/more.graphql
sed -i 's/type Query/extend type Query/; s/user(/more(/; /^type User/d' team/schema/more.graphql
try 'push of one file more' 0 "$gqlreg" push team --to "$to" --state pushed <<'TEXT'
1 file put or removed: revision 13, 0 faults, 0 operations are not served
TEXT
curl -s -X DELETE "http://$to/schema/more" > /dev/null
rm team/schema/more.graphql
try 'a removal of a file that is not there is made' 0 "$gqlreg" push team --to "$to" --state pushed --force <<'TEXT'
2 files put or removed: revision 15, 0 faults, 0 operations are not served
TEXT
try 'push again with it' 0 "$gqlreg" push team --to "$to" --state pushed <<TEXT
nothing to push: $to is at revision 15
TEXT
has 'a state that cannot be written' 2 'nowhere/pushed cannot be written' "$gqlreg" push team --to "$to" --state nowhere/pushed --all
mkdir -p long/documents
for n in 1 2 3 4 5 6; do
    for m in 0 1 2 3 4 5 6 7 8 9; do printf 'query Q%s%s { user(id: 1) { id } }\n' $n $m > long/documents/f$n$m.graphql; done
done
has 'a long push' 0 '^60 files put or removed' "$gqlreg" push long --to "$to" --all
printf 'type {\n' > team/schema/users.graphql
has 'push of a file that is refused' 2 'team/schema/users.graphql:1:6: syntax: unexpected token (201)' "$gqlreg" push team --to "$to"
kill "$server_pid"
wait "$server_pid" 2> /dev/null
printf 'type Query { user(id: ID!): User }\ntype User { id: ID! name: String! }\n' > team/schema/users.graphql
{ sleep 2; exec "$GQLREG" serve --port "$port" --connections 10000; } > "$place/served" 2>&1 &
server_pid=$!
try 'push after a restart' 0 "$gqlreg" push team --to "$to" --wait 10 <<'TEXT'
1 file put or removed: revision 1, 0 faults, 0 operations are not served
TEXT

printf '%s passed, %s failed\n' "$passed" "$failed"
[ "$failed" = 0 ]
