"""Plans with fences, and the report of each."""
from . import NOTHING, Reported

REPORTED = [
    Reported(
        "a fence without collect brings nothing",
        b"""\
rehearsal 1
node n0
node n1
job app
rank n0
put global k v
commit
fence all
rank n1
fence all
get-now app:0 k
""",
        b"""\
app:0 1 put PMIX_SUCCESS
app:0 2 commit PMIX_SUCCESS
app:0 3 fence PMIX_SUCCESS
app:1 1 fence PMIX_SUCCESS
app:1 2 get-now PMIX_ERR_NOT_FOUND
waiting 0
""",
        NOTHING,
    ),
    Reported(
        "a fence with collect brings the value",
        b"""\
rehearsal 1
node n0
node n1
job app
rank n0
put global k v
commit
fence all collect
rank n1
fence all collect
get-now app:0 k
""",
        b"""\
app:0 1 put PMIX_SUCCESS
app:0 2 commit PMIX_SUCCESS
app:0 3 fence PMIX_SUCCESS
app:1 1 fence PMIX_SUCCESS
app:1 2 get-now PMIX_SUCCESS v
waiting 0
""",
        NOTHING,
    ),
    Reported(
        "a fence collects only where every call says so",
        b"""\
rehearsal 1
node n0
node n1
job app
rank n0
put global k v
commit
fence all collect
rank n1
fence all
get-now app:0 k
""",
        b"""\
app:0 1 put PMIX_SUCCESS
app:0 2 commit PMIX_SUCCESS
app:0 3 fence PMIX_SUCCESS
app:1 1 fence PMIX_SUCCESS
app:1 2 get-now PMIX_ERR_NOT_FOUND
waiting 0
""",
        NOTHING,
    ),
    Reported(
        "a fence collects only where every call says so, the other way round",
        b"""\
rehearsal 1
node n0
node n1
job app
rank n0
put global k v
commit
fence all
rank n1
fence all collect
get-now app:0 k
""",
        b"""\
app:0 1 put PMIX_SUCCESS
app:0 2 commit PMIX_SUCCESS
app:0 3 fence PMIX_SUCCESS
app:1 1 fence PMIX_SUCCESS
app:1 2 get-now PMIX_ERR_NOT_FOUND
waiting 0
""",
        NOTHING,
    ),
    Reported(
        "a second fence waits",
        b"""\
rehearsal 1
node n0
node n1
job app
rank n0
fence app:0,app:1
fence all
rank n1
fence app:1,app:0,app:1
""",
        b"""\
app:0 1 fence PMIX_SUCCESS
app:0 2 fence waiting
app:1 1 fence PMIX_SUCCESS
waiting 1
""",
        NOTHING,
    ),
    Reported(
        "of two fences that collect the first brings the value",
        b"""\
rehearsal 1
node n0
node n1
job app
rank n0
put global k v
commit
fence app:0,app:1 collect
fence app:0,app:2 collect
rank n1
fence app:0,app:1 collect
get-now app:0 k
rank n1
fence app:0,app:2 collect
""",
        b"""\
app:0 1 put PMIX_SUCCESS
app:0 2 commit PMIX_SUCCESS
app:0 3 fence PMIX_SUCCESS
app:0 4 fence PMIX_SUCCESS
app:1 1 fence PMIX_SUCCESS
app:1 2 get-now PMIX_SUCCESS v
app:2 1 fence PMIX_SUCCESS
waiting 0
""",
        NOTHING,
    ),
    Reported(
        "a get-now before every arrival",
        b"""\
rehearsal 1
node n0
node n1
job app
rank n0
put global k v
commit
fence app:0,app:2 collect
rank n1
get-now app:0 k
fence app:1,app:2
rank n1
fence app:1,app:2
fence app:0,app:2 collect
""",
        b"""\
app:0 1 put PMIX_SUCCESS
app:0 2 commit PMIX_SUCCESS
app:0 3 fence PMIX_SUCCESS
app:1 1 get-now PMIX_ERR_NOT_FOUND
app:1 2 fence PMIX_SUCCESS
app:2 1 fence PMIX_SUCCESS
app:2 2 fence PMIX_SUCCESS
waiting 0
""",
        NOTHING,
    ),
    Reported(
        "what is committed after the arrival isn't brought",
        b"""\
rehearsal 1
node n0
node n1
job app
rank n0
put global k v
fence all collect
commit
rank n1
fence all collect
get-now app:0 k
""",
        b"""\
app:0 1 put PMIX_SUCCESS
app:0 2 fence PMIX_SUCCESS
app:0 3 commit PMIX_SUCCESS
app:1 1 fence PMIX_SUCCESS
app:1 2 get-now PMIX_ERR_NOT_FOUND
waiting 0
""",
        NOTHING,
    ),
    Reported(
        "a local key isn't brought",
        b"""\
rehearsal 1
node n0
node n1
job app
rank n0
put local k v
put remote m w
commit
fence all collect
rank n1
fence all collect
get-now app:0 k
get-now app:0 m
""",
        b"""\
app:0 1 put PMIX_SUCCESS
app:0 2 put PMIX_SUCCESS
app:0 3 commit PMIX_SUCCESS
app:0 4 fence PMIX_SUCCESS
app:1 1 fence PMIX_SUCCESS
app:1 2 get-now PMIX_ERR_NOT_FOUND
app:1 3 get-now PMIX_SUCCESS w
waiting 0
""",
        NOTHING,
    ),
    Reported(
        "a second fence over the same set brings what came after the first",
        b"""\
rehearsal 1
node n0
node n1
job app
rank n0
put global k v
commit
fence all collect
put global m w
commit
fence app:1,app:0 collect
rank n1
fence all collect
get-now app:0 m
fence app:* collect
get-now app:0 m
""",
        b"""\
app:0 1 put PMIX_SUCCESS
app:0 2 commit PMIX_SUCCESS
app:0 3 fence PMIX_SUCCESS
app:0 4 put PMIX_SUCCESS
app:0 5 commit PMIX_SUCCESS
app:0 6 fence PMIX_SUCCESS
app:1 1 fence PMIX_SUCCESS
app:1 2 get-now PMIX_ERR_NOT_FOUND
app:1 3 fence PMIX_SUCCESS
app:1 4 get-now PMIX_SUCCESS w
waiting 0
""",
        NOTHING,
    ),
    Reported(
        "a fence over two jobs, one named whole and one by its rank",
        b"""\
rehearsal 1
node n0
node n1
job a
rank n0
put global k v
commit
fence b:0,a:* collect
rank n1
fence a:1,b:0,a:0 collect
job b
rank n1
fence a:*,b:0 collect
get-now a:0 k
rank n1
get-now a:0 k
""",
        b"""\
a:0 1 put PMIX_SUCCESS
a:0 2 commit PMIX_SUCCESS
a:0 3 fence PMIX_SUCCESS
a:1 1 fence PMIX_SUCCESS
b:0 1 fence PMIX_SUCCESS
b:0 2 get-now PMIX_SUCCESS v
b:1 1 get-now PMIX_SUCCESS v
waiting 0
""",
        b"""\
race a:0 3 b:1 1 key a:0 k
findings 1
""",
    ),
    Reported(
        "a job named all",
        b"""\
rehearsal 1
node n0
job all
rank n0
fence all:0
fence all
rank n0
fence all
fence all:1
""",
        b"""\
all:0 1 fence PMIX_SUCCESS
all:0 2 fence PMIX_SUCCESS
all:1 1 fence PMIX_SUCCESS
all:1 2 fence PMIX_SUCCESS
waiting 0
""",
        NOTHING,
    ),
    Reported(
        "a fence of a set with a job that has no processes",
        b"""\
rehearsal 1
node n0
job none
job app
rank n0
fence none:*,app:0
rank n0
""",
        b"""\
app:0 1 fence PMIX_SUCCESS
waiting 0
""",
        NOTHING,
    ),
]
