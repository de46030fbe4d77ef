"""Plans with findings, and plans that come near to one."""
from . import Checked, NOTHING

CHECKED = [
    Checked(
        "a get-now that a fence races",
        b"""\
rehearsal 1
node n0
node n1
job app
rank n0
put global k v
commit
fence app:0,app:2 collect
rank n1
get-now app:0 k
rank n1
fence app:0,app:2 collect
""",
        b"""\
race app:0 3 app:1 1 key app:0 k
findings 1
""",
    ),
    Checked(
        "a get-now before one delivering fence that races another",
        b"""\
rehearsal 1
node n0
node n1
job app
rank n0
put global k v
commit
fence app:0,app:2 collect
fence app:0,app:1 collect
rank n1
get-now app:0 k
fence app:0,app:1 collect
rank n1
fence app:0,app:2 collect
""",
        b"""\
race app:0 3 app:1 1 key app:0 k
findings 1
""",
    ),
    Checked(
        "a key put twice",
        b"""\
rehearsal 1
node n0
job app
rank n0
put global k a
put global k b
commit
""",
        b"""\
rewrite app:0 1 2 k
findings 1
""",
    ),
    Checked(
        "a rewrite, and then a race on a name",
        b"""\
rehearsal 1
node n0
job app
rank n0
put global k a
put global k b
publish x 1
rank n0
publish x 2
""",
        b"""\
rewrite app:0 1 2 k
race app:0 3 app:1 1 name x
findings 2
""",
    ),
    Checked(
        "a lookup-wait that races a publish and an unpublish",
        b"""\
rehearsal 1
node n0
node n1
job app
rank n0
publish x 7
unpublish x
rank n1
lookup-wait x
""",
        b"""\
race app:0 1 app:1 1 name x
race app:0 2 app:1 1 name x
findings 2
""",
    ),
    Checked(
        "a fence that brings no local key races no get-now",
        b"""\
rehearsal 1
node n0
node n1
job app
rank n0
put local k v
commit
fence app:0,app:2 collect
rank n1
get-now app:0 k
rank n1
fence app:0,app:2 collect
""",
        NOTHING,
    ),
    Checked(
        "a get-now of a remote key on the owner's node",
        b"""\
rehearsal 1
node n0
job app
rank n0
put remote k v
commit
rank n0
get-now app:0 k
""",
        b"""\
race app:0 2 app:1 1 key app:0 k
findings 1
""",
    ),
    Checked(
        "a fence that doesn't collect races no get-now",
        b"""\
rehearsal 1
node n0
node n1
job app
rank n0
put global k v
commit
fence app:0,app:2
rank n1
get-now app:0 k
rank n1
fence app:0,app:2 collect
""",
        NOTHING,
    ),
    Checked(
        "calls of one process on a name",
        b"""\
rehearsal 1
node n0
job app
rank n0
publish x 1
publish x 2
unpublish x
lookup x
""",
        NOTHING,
    ),
    Checked(
        "a lookup of a name that is published once",
        b"""\
rehearsal 1
node n0
node n1
job app
rank n0
publish x 7
rank n1
lookup x
""",
        b"""\
race app:0 1 app:1 1 name x
findings 1
""",
    ),
    Checked(
        "races of a key and of a name, by their places",
        b"""\
rehearsal 1
node n0
job app
rank n0
get-now app:1 k
publish x 1
rank n0
put global k v
commit
lookup x
""",
        b"""\
race app:0 1 app:1 2 key app:1 k
race app:0 2 app:1 3 name x
findings 2
""",
    ),
    Checked(
        "a publish that is never reached races nothing",
        b"""\
rehearsal 1
node n0
node n1
job app
rank n0
get app:1 z
publish x 1
rank n1
publish x 2
""",
        NOTHING,
    ),
    Checked(
        "a rewrite that is never reached",
        b"""\
rehearsal 1
node n0
node n1
job app
rank n0
get app:1 z
put global k a
put global k b
put global k c
rank n1
""",
        b"""\
rewrite app:0 2 3 k
rewrite app:0 2 4 k
findings 2
""",
    ),
    Checked(
        "a fence of which the last member arrives after the get-now",
        b"""\
rehearsal 1
node n0
node n1
job app
rank n0
put global k v
commit
fence app:0,app:2 collect
rank n1
get-now app:0 k
fence app:1,app:2
rank n1
fence app:1,app:2
fence app:0,app:2 collect
""",
        NOTHING,
    ),
    Checked(
        "a race behind a lookup-wait of a name that nobody publishes",
        b"""\
rehearsal 1
node n0
node n1
job app
rank n0
lookup-wait z
publish x 1
rank n1
publish x 2
""",
        b"""\
race app:0 2 app:1 1 name x
findings 1
""",
    ),
    Checked(
        "a get-now of a key that is put twice",
        b"""\
rehearsal 1
node n0
job app
rank n0
put global k a
commit
put global k b
commit
rank n0
get-now app:0 k
""",
        b"""\
rewrite app:0 1 3 k
findings 1
""",
    ),
    Checked(
        "a get-now that two fences race",
        b"""\
rehearsal 1
node n0
node n1
job app
rank n0
put global k v
commit
fence app:0,app:2 collect
fence app:0,app:2 collect
rank n1
get-now app:0 k
rank n1
fence app:0,app:2 collect
fence app:0,app:2 collect
""",
        b"""\
race app:0 3 app:1 1 key app:0 k
race app:0 4 app:1 1 key app:0 k
findings 2
""",
    ),
    Checked(
        "a fence at which a member never arrives",
        b"""\
rehearsal 1
node n0
node n1
job app
rank n0
put global k v
commit
fence app:0,app:2 collect
rank n1
get-now app:0 k
rank n1
get app:0 z
fence app:0,app:2 collect
""",
        NOTHING,
    ),
]
