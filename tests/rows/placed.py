"""Plans with some ranks put on a node of their own."""
from . import Fault, Placed

PLACED = [
    Placed(
        "a ring of ranks that ask without waiting, one a node",
        b"""\
rehearsal 1
node n0
node n1
node n2
node n3
job app
rank n0
put global card 10.0.0.1:7000
commit
get-now app:1 card
get app:1 card
rank n1
put global card 10.0.1.1:7000
commit
get-now app:2 card
get app:2 card
rank n2
put global card 10.0.2.1:7000
commit
get-now app:3 card
get app:3 card
rank n3
put global card 10.0.3.1:7000
commit
get-now app:0 card
get app:0 card
""",
        "app:0,app:3",
        b"""\
rehearsal 1
node n0
node n1
node n2
node n3
job app
rank n1
put global card 10.0.0.1:7000
commit
get-now app:1 card
get app:1 card
rank n0
put global card 10.0.1.1:7000
commit
get-now app:2 card
get app:2 card
rank n0
put global card 10.0.2.1:7000
commit
get-now app:3 card
get app:3 card
rank n1
put global card 10.0.3.1:7000
commit
get-now app:0 card
get app:0 card
""",
    ),
    Placed(
        "neighbour not sure",
        b"""\
rehearsal 1
node n0
node n1
job app
rank n0
put global k v
commit
fence app:0,app:1 collect
fence app:0,app:3 collect
rank n1
fence app:0,app:1 collect
fence app:1,app:2
rank n1
fence app:1,app:2
get-now app:0 k
rank n0
fence app:0,app:3 collect
""",
        "app:2,app:3",
        b"""\
rehearsal 1
node n0
node n1
job app
rank n0
put global k v
commit
fence app:0,app:1 collect
fence app:0,app:3 collect
rank n0
fence app:0,app:1 collect
fence app:1,app:2
rank n1
fence app:1,app:2
get-now app:0 k
rank n1
fence app:0,app:3 collect
""",
    ),
    Placed(
        "kept get races",
        b"""\
rehearsal 2
keep
node n0
node n1
job app
rank n0
put global k v
put global ready y
commit
rank n1
get app:0 k
rank n0
get app:0 ready
get-now app:0 k
""",
        "app:1,app:2",
        b"""\
rehearsal 2
keep
node n0
node n1
job app
rank n0
put global k v
put global ready y
commit
rank n1
get app:0 k
rank n1
get app:0 ready
get-now app:0 k
""",
    ),
    Placed(
        "one rank, where there is only one node",
        b"""\
rehearsal 1
node n0
job app
rank n0
put global k v
commit
rank n0
get-now app:0 k
rank n0
get app:0 PMIX_HOSTNAME
""",
        "app:1",
        b"""\
rehearsal 1
node n0
node n1
job app
rank n0
put global k v
commit
rank n1
get-now app:0 k
rank n0
get app:0 PMIX_HOSTNAME
""",
    ),
    Placed(
        "three ranks, which are all that there are",
        b"""\
rehearsal 1
node n0
job app
rank n0
put global k v
commit
rank n0
get-now app:0 k
rank n0
get app:0 PMIX_HOSTNAME
""",
        "app:2,app:0,app:1",
        b"""\
rehearsal 1
node n0
node n1
job app
rank n1
put global k v
commit
rank n1
get-now app:0 k
rank n1
get app:0 PMIX_HOSTNAME
""",
    ),
    Placed(
        "a rank that is named twice",
        b"""\
rehearsal 1
node n0
job app
rank n0
put global k v
commit
rank n0
get-now app:0 k
rank n0
get app:0 PMIX_HOSTNAME
""",
        "app:2,app:2",
        b"""\
rehearsal 1
node n0
node n1
job app
rank n0
put global k v
commit
rank n0
get-now app:0 k
rank n1
get app:0 PMIX_HOSTNAME
""",
    ),
    Placed(
        "a node of the name that a second one gets",
        b"""\
rehearsal 1
node n1
job app
rank n1
put global k v
commit
rank n1
get-now app:0 k
rank n1
get app:0 PMIX_HOSTNAME
""",
        "app:0",
        b"""\
rehearsal 1
node n1
node n2
job app
rank n2
put global k v
commit
rank n1
get-now app:0 k
rank n1
get app:0 PMIX_HOSTNAME
""",
    ),
    Placed(
        "ranks of two jobs, under version 2 with keep; other nodes stay",
        b"""\
rehearsal 2
keep
node east
node west
node north
job sea
rank north
fence all
fence sea:*,air:0 collect
rank west
fence all
fence sea:*,air:0 collect
rank north
fence all
fence sea:0,sea:1,sea:2,air:0 collect
job air
rank east
unpublish *
fence sea:*,air:0
""",
        "air:0,sea:1",
        b"""\
rehearsal 2
keep
node east
node west
node north
job sea
rank east
fence all
fence sea:*,air:* collect
rank west
fence all
fence sea:*,air:* collect
rank east
fence all
fence sea:*,air:* collect
job air
rank west
unpublish *
fence sea:*,air:*
""",
    ),
]

THREE = b"""\
rehearsal 1
node n0
job app
rank n0
put global k v
commit
rank n0
get-now app:0 k
rank n0
get app:0 PMIX_HOSTNAME
"""
REFUSED = [
    Placed("an unknown rank", THREE, "app:3", Fault("BadOrder 1")),
    Placed("an unknown job behind a rank", THREE, "app:0,b:0", Fault("BadOrder 2")),
    Placed("no rank between two commas", THREE, "app:0,,app:1", Fault("BadOrder 2")),
    Placed("no rank at all", THREE, "", Fault("BadOrder 1")),
    Placed("a comma at the end", THREE, "app:0,", Fault("BadOrder 2")),
    Placed("all ranks of a job", THREE, "app:*", Fault("BadOrder 1")),
    Placed("a rank with a zero before it", THREE, "app:00", Fault("BadOrder 1")),
]
