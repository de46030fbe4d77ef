"""Plans with orders of steps, and what comes of following them."""
from . import Fault, Followed

FOLLOWED = [
    Followed(
        "an order to the end",
        b"""\
rehearsal 1
node n0
node n1
job app
rank n0
put global k v
commit
rank n1
get app:0 k
""",
        b"""\
app:0
app:0
app:1
""",
        b"""\
app:0 1 put PMIX_SUCCESS
app:0 2 commit PMIX_SUCCESS
app:1 1 get PMIX_SUCCESS v
waiting 0
""",
    ),
    Followed(
        "an order of part of the way",
        b"""\
rehearsal 1
node n0
node n1
job app
rank n0
put global k v
commit
rank n1
get app:0 k
""",
        b"app:0\n",
        b"""\
app:0 1 put PMIX_SUCCESS
app:0 2 commit ready
app:1 1 get waiting
waiting 1
""",
    ),
    Followed(
        "an order without steps",
        b"""\
rehearsal 1
node n0
job app
rank n0
put global k v
commit
rank n0
get-now app:0 k
""",
        b"",
        b"""\
app:0 1 put ready
app:0 2 commit unreached
app:1 1 get-now ready
waiting 0
""",
    ),
    Followed(
        "a get-now before the commit that it races",
        b"""\
rehearsal 1
node n0
job app
rank n0
put global k v
commit
rank n0
get-now app:0 k
""",
        b"""\
app:1
app:0
app:0
""",
        b"""\
app:0 1 put PMIX_SUCCESS
app:0 2 commit PMIX_SUCCESS
app:1 1 get-now PMIX_ERR_NOT_FOUND
waiting 0
""",
    ),
    Followed(
        "an order with comments, blank lines and carriage returns",
        b"""\
rehearsal 1
node n0
node n1
job app
rank n0
put global k v
commit
rank n1
get app:0 k
""",
        b"""\
# first\r

\tapp:0 \r
#

 app:0\r
app:1""",
        b"""\
app:0 1 put PMIX_SUCCESS
app:0 2 commit PMIX_SUCCESS
app:1 1 get PMIX_SUCCESS v
waiting 0
""",
    ),
    Followed(
        "a process that has arrived at a fence",
        b"""\
rehearsal 1
node n0
node n1
job app
rank n0
put global k v
commit
fence all collect
rank n1
fence all collect
get-now app:0 k
""",
        b"""\
app:0
app:0
app:0
""",
        b"""\
app:0 1 put PMIX_SUCCESS
app:0 2 commit PMIX_SUCCESS
app:0 3 fence waiting
app:1 1 fence ready
app:1 2 get-now unreached
waiting 1
""",
    ),
    Followed(
        "a fence is two steps of each member",
        b"""\
rehearsal 1
node n0
node n1
job app
rank n0
put global k v
commit
fence all collect
rank n1
fence all collect
get-now app:0 k
""",
        b"""\
app:0
app:0
app:0
app:1
app:1
""",
        b"""\
app:0 1 put PMIX_SUCCESS
app:0 2 commit PMIX_SUCCESS
app:0 3 fence ready
app:1 1 fence PMIX_SUCCESS
app:1 2 get-now ready
waiting 0
""",
    ),
    Followed(
        "a fence to the end, the second process first",
        b"""\
rehearsal 1
node n0
node n1
job app
rank n0
put global k v
commit
fence all collect
rank n1
fence all collect
get-now app:0 k
""",
        b"""\
app:1
app:0
app:0
app:0
app:1
app:1
app:0
""",
        b"""\
app:0 1 put PMIX_SUCCESS
app:0 2 commit PMIX_SUCCESS
app:0 3 fence PMIX_SUCCESS
app:1 1 fence PMIX_SUCCESS
app:1 2 get-now PMIX_SUCCESS v
waiting 0
""",
    ),
    Followed(
        "a lookup-wait after the publish",
        b"""\
rehearsal 1
node n0
node n1
job app
rank n0
lookup-wait x
rank n1
publish x 7
""",
        b"""\
app:1
app:0
""",
        b"""\
app:0 1 lookup-wait PMIX_SUCCESS 7
app:1 1 publish PMIX_SUCCESS
waiting 0
""",
    ),
    Followed(
        "a step that isn't ready",
        b"""\
rehearsal 1
node n0
node n1
job app
rank n0
put global k v
commit
rank n1
get app:0 k
""",
        b"app:1\n",
        Fault("NotReady 1"),
    ),
    Followed(
        "a step that isn't ready, counted without the lines that are skipped",
        b"""\
rehearsal 1
node n0
node n1
job app
rank n0
put global k v
commit
rank n1
get app:0 k
""",
        b"""\
# one

app:0
# two
app:1
""",
        Fault("NotReady 2"),
    ),
    Followed(
        "a step of a process that has no call left",
        b"""\
rehearsal 1
node n0
node n1
job app
rank n0
put global k v
commit
rank n1
get app:0 k
""",
        b"""\
app:0
app:0
app:0
app:1
""",
        Fault("NotReady 3"),
    ),
    Followed(
        "a second arrival before the fence is complete",
        b"""\
rehearsal 1
node n0
node n1
job app
rank n0
put global k v
commit
fence all collect
rank n1
fence all collect
get-now app:0 k
""",
        b"""\
app:0
app:0
app:0
app:0
""",
        Fault("NotReady 4"),
    ),
    Followed(
        "an unknown rank",
        b"""\
rehearsal 1
node n0
node n1
job app
rank n0
put global k v
commit
rank n1
get app:0 k
""",
        b"""\
app:0
app:9
""",
        Fault("BadOrder 2"),
    ),
    Followed(
        "an unknown rank behind a step that isn't ready",
        b"""\
rehearsal 1
node n0
node n1
job app
rank n0
put global k v
commit
rank n1
get app:0 k
""",
        b"""\
app:1
# here:
app:9
""",
        Fault("BadOrder 3"),
    ),
    Followed(
        "two ranks on a line",
        b"""\
rehearsal 1
node n0
node n1
job app
rank n0
put global k v
commit
rank n1
get app:0 k
""",
        b"""\
app:0
app:0 app:1
""",
        Fault("BadOrder 2"),
    ),
    Followed(
        "a job without a rank",
        b"""\
rehearsal 1
node n0
node n1
job app
rank n0
put global k v
commit
rank n1
get app:0 k
""",
        b"app\n",
        Fault("BadOrder 1"),
    ),
    Followed(
        "a rank with a leading zero",
        b"""\
rehearsal 1
node n0
node n1
job app
rank n0
put global k v
commit
rank n1
get app:0 k
""",
        b"app:00\n",
        Fault("BadOrder 1"),
    ),
    Followed(
        "all processes of a job",
        b"""\
rehearsal 1
node n0
node n1
job app
rank n0
put global k v
commit
rank n1
get app:0 k
""",
        b"app:*\n",
        Fault("BadOrder 1"),
    ),
    Followed(
        "an unknown job, of two bad lines the first",
        b"""\
rehearsal 1
node n0
node n1
job app
rank n0
put global k v
commit
rank n1
get app:0 k
""",
        b"""\
app:0
b:0
app:9
""",
        Fault("BadOrder 2"),
    ),
    Followed(
        "a header in an order",
        b"""\
rehearsal 1
node n0
node n1
job app
rank n0
put global k v
commit
rank n1
get app:0 k
""",
        b"""\
rehearsal 1
app:0
""",
        Fault("BadOrder 1"),
    ),
    Followed(
        "a file that is refused, before its order is judged",
        b"""\
rehearsal 1
node n0
node n1
job app
rank n0
put global k v
commit
rank n1
get app:0 k
getaway app:0 k
""",
        b"app:9\n",
        Fault("BadLine 10"),
    ),
    Followed(
        "a fence without its caller, before its order is judged",
        b"""\
rehearsal 1
node n0
node n1
job app
rank n0
rank n1
fence app:0
""",
        b"app:9\n",
        Fault("NotMember 7"),
    ),
]
