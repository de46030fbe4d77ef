"""Files, patterns, orders and words that are refused, each with what `--explain` says of it."""
from tests.support.running import RACY, text_of

# Files that are refused, each with the fault and what explains it.
EXPLAINED = (
    (
        "a word misspelt",
        b"rehearsal 1\nnode n0\njob app\nrank n0\nput global k v\n\n  comit\n",
        (
            b"fault 4 BadLine 7\n  7 |   comit\n  expected: a call of this rank, 'rank NODE' or "
            b"'job NAME'\n  nearest word: commit\n"
        ),
    ),
    (
        "a word that is near none",
        b"rehearsal 1\nnode n0\njob app\nbarrier\n",
        b"fault 4 BadLine 4\n  4 | barrier\n  expected: 'rank NODE' or 'job NAME'\n",
    ),
    (
        "a word before the first job",
        b"rehearsal 2\nkeep\nnod n0\n",
        (
            b"fault 4 BadLine 3\n  3 | nod n0\n  expected: 'node NAME' or 'job NAME', or 'keep' "
            b"right below 'rehearsal 2'\n  nearest word: node\n"
        ),
    ),
    (
        "as near as another",
        b"rehearsal 1\njob app\npet\n",
        (
            b"fault 4 BadLine 3\n  3 | pet\n  expected: 'rank NODE' or 'job NAME'\n"
            b"  nearest word: put\n"
        ),
    ),
    (
        "a line that is cut",
        b"rehearsal 1\nnode n0\njob app\nrank n0\nget app:0",
        (
            b"fault 4 BadLine 5\n  5 | get app:0\n  expected: 'get JOB:RANK KEY', below a 'rank' "
            b"line; RANK is 0, or up to nine digits that don't begin with 0; KEY isn't '*'\n"
        ),
    ),
    (
        "a key that is none",
        b"rehearsal 1\nnode n0\njob app\nrank n0\nput global * v\n",
        (
            b"fault 4 BadLine 5\n  5 | put global * v\n"
            b"  expected: 'put SCOPE KEY VALUE', below a 'rank' line; SCOPE is local, remote or "
            b"global, KEY isn't '*'\n"
        ),
    ),
    (
        "a scope misspelt",
        b"rehearsal 1\nnode n0\njob app\nrank n0\nput globl k v\n",
        (
            b"fault 4 BadLine 5\n  5 | put globl k v\n"
            b"  expected: 'put SCOPE KEY VALUE', below a 'rank' line; SCOPE is local, remote or "
            b"global, KEY isn't '*'\n  nearest word: global\n"
        ),
    ),
    (
        "a scope that is near none",
        b"rehearsal 1\nnode n0\njob app\nrank n0\nput shared k v\n",
        (
            b"fault 4 BadLine 5\n  5 | put shared k v\n"
            b"  expected: 'put SCOPE KEY VALUE', below a 'rank' line; SCOPE is local, remote or "
            b"global, KEY isn't '*'\n"
        ),
    ),
    (
        "a put alone",
        b"rehearsal 1\nnode n0\njob app\nrank n0\nput\n",
        (
            b"fault 4 BadLine 5\n  5 | put\n  expected: 'put SCOPE KEY VALUE', below a 'rank' "
            b"line; SCOPE is local, remote or global, KEY isn't '*'\n"
        ),
    ),
    (
        "the last word of a fence misspelt",
        b"rehearsal 1\nnode n0\njob app\nrank n0\nfence all colect\n",
        (
            b"fault 4 BadLine 5\n  5 | fence all colect\n"
            b"  expected: 'fence all' or 'fence ITEM,ITEM,..', then nothing or 'collect', below a "
            b"'rank' line; ITEM is JOB:RANK or JOB:*, RANK as for 'get'\n"
            b"  nearest word: collect\n"
        ),
    ),
    (
        "a set that is none",
        b"rehearsal 1\nnode n0\njob app\nrank n0\nfence app\n",
        (
            b"fault 4 BadLine 5\n  5 | fence app\n  expected: 'fence all' or 'fence "
            b"ITEM,ITEM,..', then nothing or 'collect', below a 'rank' line; ITEM is JOB:RANK or "
            b"JOB:*, RANK as for 'get'\n"
        ),
    ),
    (
        "a byte that no word has",
        b"rehearsal 1\nnode n0\njob app\nrank n0\nput global k v\x80\n",
        b"fault 4 BadLine 5\n  5 | put global k v?\n  expected: only printable ASCII in words\n",
    ),
    (
        "a node after a job",
        b"rehearsal 1\njob app\nnode n0\n",
        (
            b"fault 4 BadLine 3\n  3 | node n0\n  expected: 'node NAME', before the first job; a "
            b"name is without ':', ',', '#' and '*'\n"
        ),
    ),
    (
        "an empty file",
        b"",
        (
            b"fault 3 BadHeader 1\n  1 | (the file ends here)\n"
            b"  expected: 'rehearsal 1' or 'rehearsal 2', before all other lines\n"
        ),
    ),
    (
        "a header misspelt",
        b"# mine\nrehersal 1\r\n",
        (
            b"fault 3 BadHeader 2\n  2 | rehersal 1\n  expected: 'rehearsal 1' or 'rehearsal 2', "
            b"before all other lines\n  nearest word: rehearsal\n"
        ),
    ),
    (
        "bytes of a terminal",
        b"rehearsal 1\n\x1b[2J\x07\x7f\xc3\xa4\tcommit\n",
        b"fault 4 BadLine 2\n  2 | ?[2J?????commit\n  expected: only printable ASCII in words\n",
    ),
    (
        "a long line",
        b"rehearsal 1\n" + b"x" * 121 + b"\n",
        b"fault 4 BadLine 2\n  2 | "
        + b"x" * 120
        + b"..\n  expected: 'node NAME' or 'job NAME', or 'keep' right below 'rehearsal 2'\n",
    ),
    (
        "a line just short enough",
        b"rehearsal 1\n" + b"x" * 120 + b"\n",
        b"fault 4 BadLine 2\n  2 | "
        + b"x" * 120
        + b"\n  expected: 'node NAME' or 'job NAME', or 'keep' right below 'rehearsal 2'\n",
    ),
    (
        "an unknown node",
        b"rehearsal 1\nnode n0\njob app\nrank n1\n",
        (
            b"fault 5 UnknownName 4\n  4 | rank n1\n  expected: a node, a job or a rank that the "
            b"file declares\n"
        ),
    ),
    (
        "a name told twice",
        b"rehearsal 1\nnode n0\nnode n0\n",
        (
            b"fault 6 Twice 3\n  3 | node n0\n  expected: a name that no earlier line of this "
            b"kind has\n"
        ),
    ),
    (
        "a fence without its caller",
        b"rehearsal 1\nnode n0\njob app\nrank n0\nfence app:1\nrank n0\n",
        (
            b"fault 7 NotMember 5\n  5 | fence app:1\n"
            b"  expected: a set with the rank that calls the fence\n"
        ),
    ),
)

# Patterns that are refused, each with the fault and what explains it.
REFUSED_PATTERNS = (
    (
        "a word misspelt in a loop",
        b"pattern 1\njob app\nmany w\nfor w\nget-nw each k\nend\n",
        (
            b"fault 4 BadLine 5\n  5 | get-nw each k\n"
            b"  expected: a call that a loop may have, or 'end'\n  nearest word: get-now\n"
        ),
    ),
    (
        "a word misspelt behind a loop",
        b"pattern 1\njob app\nmany w\nfor w\nend\nfr w\n",
        (
            b"fault 4 BadLine 6\n  6 | fr w\n  expected: a call, 'for ROLES', 'one NAME', "
            b"'many NAME' or 'job NAME'\n  nearest word: for\n"
        ),
    ),
    (
        "a loop without its end",
        b"pattern 1\njob app\nmany w\nfor w\nget-now each k\n",
        (
            b"fault 4 BadLine 6\n  6 | (the file ends here)\n"
            b"  expected: a call that a loop may have, or 'end'\n"
        ),
    ),
    (
        "the header of a pattern misspelt",
        b"patern 1\n",
        (
            b"fault 3 BadHeader 1\n  1 | patern 1\n"
            b"  expected: 'pattern 1', before all other lines\n  nearest word: pattern\n"
        ),
    ),
    (
        "a plan in place of a pattern",
        b"rehearsal 2\n",
        (
            b"fault 3 BadHeader 1\n  1 | rehearsal 2\n"
            b"  expected: 'pattern 1', before all other lines\n"
        ),
    ),
    (
        "a word before the first job of a pattern",
        b"pattern 1\nkep\n",
        (
            b"fault 4 BadLine 2\n  2 | kep\n  expected: 'job NAME', or 'keep' right below "
            b"'pattern 1'\n  nearest word: keep\n"
        ),
    ),
    (
        "a role misspelt",
        b"pattern 1\njob app\nmani w\n",
        (
            b"fault 4 BadLine 3\n  3 | mani w\n"
            b"  expected: 'one NAME', 'many NAME' or 'job NAME'\n  nearest word: many\n"
        ),
    ),
    (
        "a scope misspelt in a pattern",
        b"pattern 1\njob app\nmany w\nput globl k v\n",
        (
            b"fault 4 BadLine 4\n  4 | put globl k v\n  expected: 'put SCOPE KEY VALUE', below a "
            b"role; SCOPE is local, remote or global; KEY isn't '*', and only an index such as "
            b"[self] has brackets; in a loop it has an index with each\n  nearest word: global\n"
        ),
    ),
    (
        "a group in place of a rank",
        b"pattern 1\njob app\nmany w\nget w k\n",
        (
            b"fault 4 BadLine 4\n  4 | get w k\n  expected: 'get RANK KEY', below a role; RANK is "
            b"a role of one rank, self or, in a loop, each; KEY as for 'put'; in a loop one of "
            b"them names each\n"
        ),
    ),
    (
        "a role that isn't there",
        b"pattern 1\njob app\nmany w\nget root k\n",
        (
            b"fault 5 UnknownName 4\n  4 | get root k\n"
            b"  expected: a job or a role that the file declares\n"
        ),
    ),
    (
        "a fence over the group of its loop",
        b"pattern 1\njob app\nmany w\nfor w\nfence self,each,w\nend\n",
        (
            b"fault 4 BadLine 5\n  5 | fence self,each,w\n  expected: 'fence all' or 'fence "
            b"ITEM,ITEM,..', then nothing or 'collect', below a role, not in 'for some'; ITEM is a "
            b"role, JOB:*, self or each; in a loop one is each, and none has the loop's whole "
            b"role\n"
        ),
    ),
    (
        "a role twice in a list",
        b"pattern 1\njob app\nmany w\nfor w,w\n",
        (
            b"fault 6 Twice 4\n  4 | for w,w\n  expected: a name that no earlier line of this kind "
            b"has, and in a list each role once\n"
        ),
    ),
    (
        "too many jobs",
        b"pattern 1\n" + b"".join(b"job j%d\n" % number for number in range(17)),
        (
            b"fault 8 TooMany 18\n  18 | job j16\n  expected: no more jobs, roles, groups, roles "
            b"in a list or turns of 'for some' than a pattern may have, and instances within the "
            b"limits of plans\n"
        ),
    ),
)

# What explains an order that can't be read.
ORDERED = (
    b"  expected: one rank of the plan and nothing else, such as app:0, and an order "
    b"within its size limit\n"
)

# The words of a question, each wrong, with what explains it.
ASKED = (
    ("app:\u00e4", b"  word 1 | app:??\n  expected: a rank of the plan, such as app:0\n"),
    ("99", b"  word 2 | 99\n  expected: the number of a call of this rank, from 1\n"),
    ("app", b"  word 3 | app\n  expected: a rank of the plan, such as app:0\n"),
    ("0", b"  word 4 | 0\n  expected: the number of a call of this rank, from 1\n"),
)

# Ranks that wait at fences, one of them afterwards for a key of its own, another for a name.
FENCED = (
    b"rehearsal 1\nnode n0\njob app\nrank n0\n"
    b"fence all\nget app:0 k\nrank n0\nfence all\n"
    b"lookup-wait svc\n"
)

WIDE = b"rehearsal 1\nnode n0\njob app\n" + b"rank n0\nfence all\n" * 12

# Plans, each with an order of which a step can't be taken, and with what explains that.
STOPPED = (
    (
        "a get before a commit",
        text_of("examples/standstill.plan"),
        b"app:0\n",
        (
            b"fault 12 NotReady 1\n  1 | app:0\n  stands at: app:0 1 get\n"
            b"  waits for: app:1 to commit the key b\n"
        ),
    ),
    (
        "a fence that one hasn't come to",
        FENCED,
        b"app:0\n# skipped\n\n\tapp:0 \r\n",
        (
            b"fault 12 NotReady 2\n  4 | ?app:0 \n  stands at: app:0 1 fence\n"
            b"  waits for: app:1 to arrive\n"
        ),
    ),
    (
        "a fence that many haven't come to",
        WIDE,
        b"app:3\napp:3\n",
        (
            b"fault 12 NotReady 2\n  2 | app:3\n  stands at: app:3 1 fence\n"
            b"  waits for: app:0 app:1 app:2 app:4 app:5 app:6 app:7 app:8 and 3 more to arrive\n"
        ),
    ),
    (
        "a fence that eight haven't come to",
        WIDE,
        b"app:3\napp:9\napp:10\napp:11\napp:9\n",
        (
            b"fault 12 NotReady 5\n  5 | app:9\n  stands at: app:9 1 fence\n"
            b"  waits for: app:0 app:1 app:2 app:4 app:5 app:6 app:7 app:8 to arrive\n"
        ),
    ),
    (
        "an own key",
        FENCED,
        b"app:0\napp:1\napp:0\napp:0\n",
        (
            b"fault 12 NotReady 4\n  4 | app:0\n  stands at: app:0 2 get\n"
            b"  waits for: its own key k, which it hasn't put\n"
        ),
    ),
    (
        "a name",
        FENCED,
        b"app:1\napp:0\napp:1\napp:1\n",
        (
            b"fault 12 NotReady 4\n  4 | app:1\n  stands at: app:1 2 lookup-wait\n"
            b"  waits for: the name svc to be published\n"
        ),
    ),
    (
        "a rank at its end",
        RACY,
        b"app:1\napp:1\n",
        b"fault 12 NotReady 2\n  2 | app:1\n  stands at: its end, with no call left\n",
    ),
)

# What is said where ranks wait for ever, of a deadlock, and of what never comes.
DEADLOCK = b"  deadlock, each for the next and the last for the first:\n"
NEVER = b"  for what never comes:\n"

# Plans in which nothing is found and ranks wait for ever, each with what is said of them.
STANDING = (
    (
        "two gets before the commits",
        text_of("examples/standstill.plan"),
        DEADLOCK
        + b"    app:0 1 get waits for app:1 to commit the key b\n"
        + b"    app:1 1 get waits for app:0 to commit the key a\n",
    ),
    (
        "a fence and a get, and a rank that is in no circle",
        b"rehearsal 1\nnode n0\njob app\nrank n0\nfence all\nput global a 1\ncommit\n"
        b"rank n0\nget app:0 a\nfence all\nrank n0\nfence all\n",
        DEADLOCK
        + b"    app:0 1 fence waits for app:1 to arrive\n"
        + b"    app:1 1 get waits for app:0 to commit the key a\n",
    ),
    (
        "a name that is published twice",
        b"rehearsal 1\nnode n0\njob app\nrank n0\nlookup-wait x\npublish y 1\n"
        b"rank n0\nlookup-wait y\npublish x 1\nunpublish x\npublish x 2\n",
        DEADLOCK
        + b"    app:0 1 lookup-wait waits for the name x to be published\n"
        + b"    app:1 1 lookup-wait waits for the name y to be published\n",
    ),
    (
        "a deadlock, and what never comes",
        text_of("examples/standstill.plan") + b"rank n1\nget app:0 c\n",
        DEADLOCK
        + b"    app:0 1 get waits for app:1 to commit the key b\n"
        + b"    app:1 1 get waits for app:0 to commit the key a\n"
        + NEVER
        + b"    app:2 1 get waits for app:0 to commit the key c\n",
    ),
    (
        "an own key, and a name that nobody publishes",
        FENCED,
        NEVER
        + b"    app:0 2 get waits for its own key k, which it hasn't put\n"
        + b"    app:1 2 lookup-wait waits for the name svc to be published\n",
    ),
    (
        "a fence that a member doesn't call, and one who waits behind it",
        b"rehearsal 1\nnode n0\njob app\nrank n0\nfence app:0,app:1\nput global a 1\ncommit\n"
        b"rank n0\nput global b 1\nrank n0\nget app:0 a\n",
        NEVER + b"    app:0 1 fence waits for app:1 to arrive\n",
    ),
    (
        "more ranks than have a line",
        b"rehearsal 1\nnode n0\njob app\nrank n0\ncommit\n" + b"rank n0\nget app:0 k\n" * 19,
        NEVER
        + b"".join(
            b"    app:%d 1 get waits for app:0 to commit the key k\n" % number
            for number in range(1, 17)
        )
        + b"    and 3 more\n",
    ),
)
