"""Plans with questions about two of their calls, and the answers."""
from . import Asked, Fault

ASKED = [
    Asked(
        "a get-now that an earlier get orders",
        b"""\
rehearsal 1
node n0
job app
rank n0
put global k v
put global m w
commit
rank n0
get app:0 m
get-now app:0 k
""",
        "app:0 3 app:1 2",
        b"""\
before
app:0 3 commit
app:1 1 get
app:1 2 get-now
""",
    ),
    Asked(
        "a second publish, asked for the other way round",
        b"""\
rehearsal 1
node n0
node n1
job app
rank n0
publish x 1
fence all
rank n1
fence all
publish x 2
""",
        "app:1 2 app:0 1",
        b"""\
after
app:0 1 publish
app:0 2 fence arrive
app:1 1 fence leave
app:1 2 publish
""",
    ),
    Asked(
        "two puts behind gets that wait for each other",
        b"""\
rehearsal 1
node n0
node n1
job app
rank n0
get app:1 b
put global a 1
commit
rank n1
get app:0 a
put global b 2
commit
""",
        "app:0 2 app:1 2",
        b"""\
unordered
dead app:0 2
dead app:1 2
""",
    ),
    Asked(
        "a call against itself",
        b"""\
rehearsal 1
node n0
node n1
job app
rank n0
put global k v
commit
rank n1
get app:0 k
""",
        "app:0 1 app:0 1",
        b"unordered\n",
    ),
    Asked(
        "a call past the last",
        b"""\
rehearsal 1
node n0
node n1
job app
rank n0
put global k v
commit
rank n1
get app:0 k
""",
        "app:0 3 app:1 1",
        Fault("BadOrder 2"),
    ),
    Asked(
        "a call that is never reached, against itself",
        b"""\
rehearsal 1
node n0
node n1
job app
rank n0
get app:1 b
put global a 1
commit
rank n1
get app:0 a
put global b 2
commit
""",
        "app:0 2 app:0 2",
        b"""\
unordered
dead app:0 2
""",
    ),
    Asked(
        "two wrong words",
        b"""\
rehearsal 1
node n0
node n1
job app
rank n0
put global k v
commit
rank n1
get app:0 k
""",
        "app:7 1 app:1 x",
        Fault("BadOrder 1"),
    ),
    Asked(
        "a call of number 0",
        b"""\
rehearsal 1
node n0
node n1
job app
rank n0
put global k v
commit
rank n1
get app:0 k
""",
        "app:0 0 app:1 1",
        Fault("BadOrder 2"),
    ),
    Asked(
        "a number with a zero before it",
        b"""\
rehearsal 1
node n0
node n1
job app
rank n0
put global k v
commit
rank n1
get app:0 k
""",
        "app:0 01 app:1 1",
        Fault("BadOrder 2"),
    ),
    Asked(
        "a number of ten digits",
        b"""\
rehearsal 1
node n0
node n1
job app
rank n0
put global k v
commit
rank n1
get app:0 k
""",
        "app:0 1 app:1 1000000000",
        Fault("BadOrder 4"),
    ),
    Asked(
        "an unknown second process",
        b"""\
rehearsal 1
node n0
node n1
job app
rank n0
put global k v
commit
rank n1
get app:0 k
""",
        "app:0 1 app:2 x",
        Fault("BadOrder 3"),
    ),
    Asked(
        "a put before the get of another process",
        b"""\
rehearsal 1
node n0
node n1
job app
rank n0
put global k v
commit
rank n1
get app:0 k
""",
        "app:0 1 app:1 1",
        b"""\
before
app:0 1 put
app:0 2 commit
app:1 1 get
""",
    ),
    Asked(
        "a publish before the look-up that waits for it",
        b"""\
rehearsal 1
node n0
node n1
job app
rank n0
publish x 7
rank n1
lookup-wait x
""",
        "app:0 1 app:1 1",
        b"""\
before
app:0 1 publish
app:1 1 lookup-wait
""",
    ),
    Asked(
        "a fence that a member never calls",
        b"""\
rehearsal 1
node n0
node n1
job app
rank n0
fence all
commit
rank n1
commit
""",
        "app:0 1 app:0 2",
        b"""\
unordered
dead app:0 2
""",
    ),
    Asked(
        "a look-up of a name that is unpublished too",
        b"""\
rehearsal 1
node n0
node n1
job app
rank n0
publish x 7
unpublish x
rank n1
lookup-wait x
""",
        "app:0 1 app:1 1",
        b"unordered\n",
    ),
    Asked(
        "a file that is refused, with a wrong word",
        b"rehearsal 3\n",
        "app:0 0 app:1 1",
        Fault("BadHeader 1"),
    ),
]
