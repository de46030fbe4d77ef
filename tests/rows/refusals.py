"""Plans that are refused."""
from . import Refused

REFUSED = [
    Refused(
        "an empty file",
        b"",
        "BadHeader 1",
    ),
    Refused(
        "a comment alone",
        b"# only\n",
        "BadHeader 2",
    ),
    Refused(
        "a file cut in the header",
        b"rehearsal",
        "BadHeader 1",
    ),
    Refused(
        "an unknown version",
        b"rehearsal 3\n",
        "BadHeader 1",
    ),
    Refused(
        "a rank before a job",
        b"""\
rehearsal 1
rank n0
""",
        "BadLine 2",
    ),
    Refused(
        "a node after a job",
        b"""\
rehearsal 1
job a
node n0
""",
        "BadLine 3",
    ),
    Refused(
        "a file cut in a scope",
        b"""\
rehearsal 1
node n0
job app
rank n0
put glo""",
        "BadLine 5",
    ),
    Refused(
        "a file cut in a verb",
        b"""\
rehearsal 1
node n0
node n1
job app
rank n0
put global k v
commi""",
        "BadLine 7",
    ),
    Refused(
        "a file cut in a get",
        b"""\
rehearsal 1
node n0
node n1
job app
rank n0
put global k v
commit
rank n1
get app:0""",
        "BadLine 9",
    ),
    Refused(
        "two carriage returns",
        b"""\
rehearsal 1
node n0
node n1
job app
rank n0
put global k v
commit\r\r
rank n1
get app:0 k
""",
        "BadLine 7",
    ),
    Refused(
        "a foreign byte in a value",
        b"""\
rehearsal 1
node n0
node n1
job app
rank n0
put global k \xc8
commit
rank n1
get app:0 k
""",
        "BadLine 6",
    ),
    Refused(
        "a rank with a leading zero",
        b"""\
rehearsal 1
node n0
job a
rank n0
get a:00 k
""",
        "BadLine 5",
    ),
    Refused(
        "a rank of ten digits",
        b"""\
rehearsal 1
node n0
node n1
job app
rank n0
put global k v
commit
rank n1
get app:9999999999 k
""",
        "BadLine 9",
    ),
    Refused(
        "an unpublish of all names, which is of another version",
        b"""\
rehearsal 1
node n0
job a
rank n0
unpublish *
""",
        "BadLine 5",
    ),
    Refused(
        "a line of version 2 under version 1",
        b"""\
rehearsal 1
keep
""",
        "BadLine 2",
    ),
    Refused(
        "a rank on an unknown node",
        b"""\
rehearsal 1
job a
rank n0
""",
        "UnknownName 3",
    ),
    Refused(
        "a file cut in the name of a node",
        b"""\
rehearsal 1
node n0
node n1
job app
rank n0
put global k v
commit
rank n""",
        "UnknownName 8",
    ),
    Refused(
        "a get of an unknown rank",
        b"""\
rehearsal 1
node n0
node n1
job app
rank n0
get app:5 k
""",
        "UnknownName 6",
    ),
    Refused(
        "a get of a rank of nine digits",
        b"""\
rehearsal 1
node n0
node n1
job app
rank n0
put global k v
commit
rank n1
get app:999999999 k
""",
        "UnknownName 9",
    ),
    Refused(
        "a node declared twice",
        b"""\
rehearsal 1
node n0
node n0
""",
        "Twice 3",
    ),
    Refused(
        "an odd line below a get of an unknown job",
        b"""\
rehearsal 1
node n0
job a
rank n0
get b:0 k
foo
""",
        "BadLine 6",
    ),
    Refused(
        "a get of a rank without a job",
        b"""\
rehearsal 1
node n0
job app
rank n0
get :0 k
""",
        "BadLine 5",
    ),
    Refused(
        "a second header",
        b"""\
rehearsal 1
node n0
rehearsal 1
""",
        "BadLine 3",
    ),
    Refused(
        "a call before the first rank of its job",
        b"""\
rehearsal 1
node n0
job a
rank n0
job b
commit
""",
        "BadLine 6",
    ),
    Refused(
        "a job declared twice",
        b"""\
rehearsal 1
job a
job a
""",
        "Twice 3",
    ),
    Refused(
        "an unknown scope",
        b"""\
rehearsal 1
node n0
job app
rank n0
put all k v
""",
        "BadLine 5",
    ),
    Refused(
        "a put of the key *",
        b"""\
rehearsal 1
node n0
job app
rank n0
put local * v
""",
        "BadLine 5",
    ),
    Refused(
        "a get-now without a key",
        b"""\
rehearsal 1
node n0
job app
rank n0
get-now app:0
""",
        "BadLine 5",
    ),
    Refused(
        "a fence without a set",
        b"""\
rehearsal 1
node n0
job app
rank n0
fence
""",
        "BadLine 5",
    ),
    Refused(
        "a fence with an odd third word",
        b"""\
rehearsal 1
node n0
job app
rank n0
fence all collected
""",
        "BadLine 5",
    ),
    Refused(
        "a set with empty items",
        b"""\
rehearsal 1
node n0
job a
rank n0
fence a:0,,
""",
        "BadLine 5",
    ),
    Refused(
        "a set of all and one more",
        b"""\
rehearsal 1
node n0
job app
rank n0
fence all,app:0
""",
        "BadLine 5",
    ),
    Refused(
        "a set of a job without a rank",
        b"""\
rehearsal 1
node n0
job app
rank n0
fence app
""",
        "BadLine 5",
    ),
    Refused(
        "a set of a rank without a job",
        b"""\
rehearsal 1
node n0
job app
rank n0
fence :*
""",
        "BadLine 5",
    ),
    Refused(
        "a set of a rank with a leading zero",
        b"""\
rehearsal 1
node n0
job app
rank n0
fence app:00
""",
        "BadLine 5",
    ),
    Refused(
        "a fence over an unknown job",
        b"""\
rehearsal 1
node n0
job app
rank n0
fence app:0,b:*
""",
        "UnknownName 5",
    ),
    Refused(
        "a fence over an unknown rank",
        b"""\
rehearsal 1
node n0
node n1
job app
rank n0
fence app:0,app:1
""",
        "UnknownName 6",
    ),
    Refused(
        "a fence without its caller",
        b"""\
rehearsal 1
node n0
node n1
job app
rank n0
rank n1
fence app:0
""",
        "NotMember 7",
    ),
    Refused(
        "a fence over a job without processes",
        b"""\
rehearsal 1
node n0
job none
job app
rank n0
fence none:*
""",
        "NotMember 6",
    ),
    Refused(
        "a fence without its caller, over an unknown rank",
        b"""\
rehearsal 1
node n0
node n1
job app
rank n0
rank n1
fence app:0,app:5
""",
        "UnknownName 7",
    ),
    Refused(
        "a fence without its caller above a get of an unknown rank",
        b"""\
rehearsal 1
node n0
node n1
job app
rank n0
rank n1
fence app:0
get app:5 k
""",
        "NotMember 7",
    ),
    Refused(
        "a publish without a value",
        b"""\
rehearsal 1
node n0
job app
rank n0
publish x
""",
        "BadLine 5",
    ),
    Refused(
        "a publish of the key *",
        b"""\
rehearsal 1
node n0
job app
rank n0
publish * 1
""",
        "BadLine 5",
    ),
    Refused(
        "a lookup with a value",
        b"""\
rehearsal 1
node n0
job app
rank n0
lookup x 7
""",
        "BadLine 5",
    ),
    Refused(
        "a lookup-wait without a key",
        b"""\
rehearsal 1
node n0
job app
rank n0
lookup-wait
""",
        "BadLine 5",
    ),
]
