"""Plans of version 2 that keep what gets bring, and the report of each; and where the line `keep`
is refused."""
from . import NOTHING, Refused, Reported

REPORTED = [
    Reported(
        "keep alone, past comments",
        b"""\
rehearsal 2
# what gets bring stays

keep
""",
        b"waiting 0\n",
        NOTHING,
    ),
    Reported(
        "what a get brings is there for the next process of its node",
        b"""\
rehearsal 2
keep
node n0
node n1
job app
rank n0
put global k v
commit
rank n1
get app:0 k
fence app:1,app:2
rank n1
fence app:1,app:2
get-now app:0 k
""",
        b"""\
app:0 1 put PMIX_SUCCESS
app:0 2 commit PMIX_SUCCESS
app:1 1 get PMIX_SUCCESS v
app:1 2 fence PMIX_SUCCESS
app:2 1 fence PMIX_SUCCESS
app:2 2 get-now PMIX_SUCCESS v
waiting 0
""",
        NOTHING,
    ),
    Reported(
        "without keep a get brings nothing",
        b"""\
rehearsal 2
node n0
node n1
job app
rank n0
put global k v
commit
rank n1
get app:0 k
fence app:1,app:2
rank n1
fence app:1,app:2
get-now app:0 k
""",
        b"""\
app:0 1 put PMIX_SUCCESS
app:0 2 commit PMIX_SUCCESS
app:1 1 get PMIX_SUCCESS v
app:1 2 fence PMIX_SUCCESS
app:2 1 fence PMIX_SUCCESS
app:2 2 get-now PMIX_ERR_NOT_FOUND
waiting 0
""",
        NOTHING,
    ),
    Reported(
        "a get that brings the key races a get that doesn't wait",
        b"""\
rehearsal 2
keep
node n0
node n1
job app
rank n0
put global k v
commit
rank n1
get app:0 k
rank n1
get-now app:0 k
""",
        b"""\
app:0 1 put PMIX_SUCCESS
app:0 2 commit PMIX_SUCCESS
app:1 1 get PMIX_SUCCESS v
app:2 1 get-now PMIX_SUCCESS v
waiting 0
""",
        b"""\
race app:1 1 app:2 1 key app:0 k
findings 1
""",
    ),
    Reported(
        "a get outside the scope brings nothing",
        b"""\
rehearsal 2
keep
node n0
node n1
job app
rank n0
put local k v
commit
rank n1
get app:0 k
fence app:1,app:2
rank n1
fence app:1,app:2
get-now app:0 k
""",
        b"""\
app:0 1 put PMIX_SUCCESS
app:0 2 commit PMIX_SUCCESS
app:1 1 get PMIX_ERR_EXISTS_OUTSIDE_SCOPE
app:1 2 fence PMIX_SUCCESS
app:2 1 fence PMIX_SUCCESS
app:2 2 get-now PMIX_ERR_NOT_FOUND
waiting 0
""",
        NOTHING,
    ),
]

REFUSED = [
    Refused(
        "keep in version 1",
        b"""\
rehearsal 1
keep
""",
        "BadLine 2",
    ),
    Refused(
        "keep twice",
        b"""\
rehearsal 2
keep
keep
""",
        "BadLine 3",
    ),
    Refused(
        "keep after a node",
        b"""\
rehearsal 2
node n0
keep
""",
        "BadLine 3",
    ),
    Refused(
        "keep after a job",
        b"""\
rehearsal 2
# no node
job app
keep
""",
        "BadLine 4",
    ),
    Refused(
        "keep twice, with a node between",
        b"""\
rehearsal 2
keep
node n0
keep
""",
        "BadLine 4",
    ),
    Refused(
        "keep and a word",
        b"""\
rehearsal 2
keep all
""",
        "BadLine 2",
    ),
]
