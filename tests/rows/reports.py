"""Plans of puts, commits and gets, and the report of each."""
from . import NOTHING, Reported

REPORTED = [
    Reported(
        "a get waits for a commit on another node",
        b"""\
rehearsal 1
node n0
node n1
job app
rank n0
put global k v
commit
rank n1
get app:0 k
""",
        b"""\
app:0 1 put PMIX_SUCCESS
app:0 2 commit PMIX_SUCCESS
app:1 1 get PMIX_SUCCESS v
waiting 0
""",
        NOTHING,
    ),
    Reported(
        "gets in a row across ranks",
        b"""\
rehearsal 1
node n0
node n1
job app
rank n0
get app:1 k
rank n1
get app:2 k
put global k v
commit
rank n1
put global k v
commit
rank n1
commit
rank n1
commit
""",
        b"""\
app:0 1 get PMIX_SUCCESS v
app:1 1 get PMIX_SUCCESS v
app:1 2 put PMIX_SUCCESS
app:1 3 commit PMIX_SUCCESS
app:2 1 put PMIX_SUCCESS
app:2 2 commit PMIX_SUCCESS
app:3 1 commit PMIX_SUCCESS
app:4 1 commit PMIX_SUCCESS
waiting 0
""",
        NOTHING,
    ),
    Reported(
        "a get of a key that is never committed",
        b"""\
rehearsal 1
node n0
node n1
job app
rank n0
put global k v
rank n1
get app:0 k
""",
        b"""\
app:0 1 put PMIX_SUCCESS
app:1 1 get waiting
waiting 1
""",
        NOTHING,
    ),
    Reported(
        "two gets wait for each other",
        b"""\
rehearsal 1
node n0
node n1
job app
rank n0
get app:1 b
put global a 1
commit
rank n1
get app:0 a
put global b 2
commit
""",
        b"""\
app:0 1 get waiting
app:0 2 put unreached
app:0 3 commit unreached
app:1 1 get waiting
app:1 2 put unreached
app:1 3 commit unreached
waiting 2
""",
        NOTHING,
    ),
    Reported(
        "one rank without calls",
        b"""\
rehearsal 1
node n0
node n1
job app
rank n0
""",
        b"waiting 0\n",
        NOTHING,
    ),
    Reported(
        "a header alone, without a line feed",
        b"rehearsal 1",
        b"waiting 0\n",
        NOTHING,
    ),
    Reported(
        "a comment and a blank line first",
        b"""\
# note

rehearsal 1
""",
        b"waiting 0\n",
        NOTHING,
    ),
    Reported(
        "lines ended by a carriage return and a line feed",
        b"""\
rehearsal 1\r
node n0\r
node n1\r
job app\r
rank n0\r
put global k v\r
commit\r
rank n1\r
get app:0 k\r
""",
        b"""\
app:0 1 put PMIX_SUCCESS
app:0 2 commit PMIX_SUCCESS
app:1 1 get PMIX_SUCCESS v
waiting 0
""",
        NOTHING,
    ),
    Reported(
        "a foreign byte in a comment",
        b"""\
rehearsal 1
node n0
node n1
job app
rank n0
put global k v
commit
#\xc8
rank n1
get app:0 k
""",
        b"""\
app:0 1 put PMIX_SUCCESS
app:0 2 commit PMIX_SUCCESS
app:1 1 get PMIX_SUCCESS v
waiting 0
""",
        NOTHING,
    ),
    Reported(
        "a key put twice",
        b"""\
rehearsal 1
node n0
job app
rank n0
put global k a
put global k b
commit
rank n0
get app:0 k
""",
        b"""\
app:0 1 put PMIX_SUCCESS
app:0 2 put PMIX_SUCCESS
app:0 3 commit PMIX_SUCCESS
app:1 1 get PMIX_SUCCESS b
waiting 0
""",
        b"""\
rewrite app:0 1 2 k
findings 1
""",
    ),
    Reported(
        "a get of a key of its own, before any commit",
        b"""\
rehearsal 1
node n0
job app
rank n0
put global k v
get app:0 k
get app:0 z
commit
""",
        b"""\
app:0 1 put PMIX_SUCCESS
app:0 2 get PMIX_SUCCESS v
app:0 3 get waiting
app:0 4 commit unreached
waiting 1
""",
        NOTHING,
    ),
    Reported(
        "a get of a rank of a job that is declared later",
        b"""\
rehearsal 1
node n0
job a
rank n0
get b:0 k
job b
rank n0
put global k v
commit
""",
        b"""\
a:0 1 get PMIX_SUCCESS v
b:0 1 put PMIX_SUCCESS
b:0 2 commit PMIX_SUCCESS
waiting 0
""",
        NOTHING,
    ),
    Reported(
        "a get of a local key from another node",
        b"""\
rehearsal 1
node n0
node n1
job app
rank n0
put local k v
commit
rank n1
get app:0 k
""",
        b"""\
app:0 1 put PMIX_SUCCESS
app:0 2 commit PMIX_SUCCESS
app:1 1 get PMIX_ERR_EXISTS_OUTSIDE_SCOPE
waiting 0
""",
        NOTHING,
    ),
    Reported(
        "each scope, asked for on its node and on another",
        b"""\
rehearsal 1
node n0
node n1
job app
rank n0
put local l 1
put remote r 2
put global g 3
commit
rank n0
get app:0 l
get app:0 r
get app:0 g
rank n1
get app:0 l
get app:0 r
get app:0 g
""",
        b"""\
app:0 1 put PMIX_SUCCESS
app:0 2 put PMIX_SUCCESS
app:0 3 put PMIX_SUCCESS
app:0 4 commit PMIX_SUCCESS
app:1 1 get PMIX_SUCCESS 1
app:1 2 get PMIX_ERR_EXISTS_OUTSIDE_SCOPE
app:1 3 get PMIX_SUCCESS 3
app:2 1 get PMIX_ERR_EXISTS_OUTSIDE_SCOPE
app:2 2 get PMIX_SUCCESS 2
app:2 3 get PMIX_SUCCESS 3
waiting 0
""",
        NOTHING,
    ),
    Reported(
        "a get-now of a remote key on the owner's node",
        b"""\
rehearsal 1
node n0
job app
rank n0
put remote k v
put global m w
commit
rank n0
get app:0 m
get-now app:0 k
""",
        b"""\
app:0 1 put PMIX_SUCCESS
app:0 2 put PMIX_SUCCESS
app:0 3 commit PMIX_SUCCESS
app:1 1 get PMIX_SUCCESS w
app:1 2 get-now PMIX_ERR_EXISTS_OUTSIDE_SCOPE
waiting 0
""",
        NOTHING,
    ),
    Reported(
        "a get-now after a get of what the same commit stored",
        b"""\
rehearsal 1
node n0
job app
rank n0
put global k v
put global m w
commit
rank n0
get app:0 m
get-now app:0 k
""",
        b"""\
app:0 1 put PMIX_SUCCESS
app:0 2 put PMIX_SUCCESS
app:0 3 commit PMIX_SUCCESS
app:1 1 get PMIX_SUCCESS w
app:1 2 get-now PMIX_SUCCESS v
waiting 0
""",
        NOTHING,
    ),
    Reported(
        "a get-now that a commit races, in the plain run",
        b"""\
rehearsal 1
node n0
job app
rank n0
put global k v
commit
rank n0
get-now app:0 k
""",
        b"""\
app:0 1 put PMIX_SUCCESS
app:0 2 commit PMIX_SUCCESS
app:1 1 get-now PMIX_SUCCESS v
waiting 0
""",
        b"""\
race app:0 2 app:1 1 key app:0 k
findings 1
""",
    ),
    Reported(
        "a get-now of a local key, and of one that isn't committed",
        b"""\
rehearsal 1
node n0
job app
rank n0
put local k v
commit
put global m w
rank n0
get app:0 k
get-now app:0 k
get-now app:0 m
""",
        b"""\
app:0 1 put PMIX_SUCCESS
app:0 2 commit PMIX_SUCCESS
app:0 3 put PMIX_SUCCESS
app:1 1 get PMIX_SUCCESS v
app:1 2 get-now PMIX_SUCCESS v
app:1 3 get-now PMIX_ERR_NOT_FOUND
waiting 0
""",
        NOTHING,
    ),
    Reported(
        "a get-now of a process on another node, without a fence",
        b"""\
rehearsal 1
node n0
node n1
job app
rank n0
put global k v
commit
rank n1
get app:0 k
get-now app:0 k
""",
        b"""\
app:0 1 put PMIX_SUCCESS
app:0 2 commit PMIX_SUCCESS
app:1 1 get PMIX_SUCCESS v
app:1 2 get-now PMIX_ERR_NOT_FOUND
waiting 0
""",
        NOTHING,
    ),
    Reported(
        "a put of its own, read whatever its scope",
        b"""\
rehearsal 1
node n0
job app
rank n0
put remote k v
get app:0 k
get-now app:0 z
""",
        b"""\
app:0 1 put PMIX_SUCCESS
app:0 2 get PMIX_SUCCESS v
app:0 3 get-now PMIX_ERR_NOT_FOUND
waiting 0
""",
        NOTHING,
    ),
    Reported(
        "a key put again with another scope",
        b"""\
rehearsal 1
node n0
node n1
job app
rank n0
put global k a
commit
put local k b
commit
put global m w
commit
rank n1
get app:0 m
get app:0 k
""",
        b"""\
app:0 1 put PMIX_SUCCESS
app:0 2 commit PMIX_SUCCESS
app:0 3 put PMIX_SUCCESS
app:0 4 commit PMIX_SUCCESS
app:0 5 put PMIX_SUCCESS
app:0 6 commit PMIX_SUCCESS
app:1 1 get PMIX_SUCCESS w
app:1 2 get PMIX_ERR_EXISTS_OUTSIDE_SCOPE
waiting 0
""",
        b"""\
rewrite app:0 1 3 k
findings 1
""",
    ),
    Reported(
        "reserved keys, and the map of processes",
        b"""\
rehearsal 1
node n0
node n1
job a
rank n0
rank n1
job b
rank n0
get a:1 PMIX_RANK
get b:0 PMIX_LOCAL_RANK
get b:0 PMIX_NODE_RANK
get-now a:0 PMIX_JOB_SIZE
get a:1 PMIX_HOSTNAME
get a:0 pmix.x
put global PMIX_X 1
lookup-wait pmixq
""",
        b"""\
b:0 1 get PMIX_SUCCESS 1
b:0 2 get PMIX_SUCCESS 0
b:0 3 get PMIX_SUCCESS 1
b:0 4 get-now PMIX_SUCCESS 2
b:0 5 get PMIX_SUCCESS n1
b:0 6 get PMIX_ERR_NOT_FOUND
b:0 7 put PMIX_ERR_BAD_PARAM
b:0 8 lookup-wait PMIX_ERR_BAD_PARAM
waiting 0
""",
        NOTHING,
    ),
    Reported(
        "reserved keys of one's own, and keys that only look so",
        b"""\
rehearsal 1
node n0
job app
rank n0
get app:0 PMIX_RANK
get-now app:0 PMIX_LOCAL_RANK
get app:0 PMIX_UNIV_SIZE
put global pmix 1
put global PMIX 2
put global Pmix.a 3
get app:0 PMIX
get app:0 Pmix.a
""",
        b"""\
app:0 1 get PMIX_SUCCESS 0
app:0 2 get-now PMIX_SUCCESS 0
app:0 3 get PMIX_ERR_NOT_FOUND
app:0 4 put PMIX_ERR_BAD_PARAM
app:0 5 put PMIX_SUCCESS
app:0 6 put PMIX_SUCCESS
app:0 7 get PMIX_SUCCESS 2
app:0 8 get PMIX_SUCCESS 3
waiting 0
""",
        NOTHING,
    ),
]
