"""Plans, and what is found in them on some placement; else which replies differ between these."""
from . import Anywhere

ANYWHERE = [
    Anywhere(
        "a leader of a node that gets the card later",
        b"""\
rehearsal 1
node n0
node n1
node n2
job app
rank n0
put global card 10.0.0.1:7000
commit
fence app:0,app:1 collect
fence app:0,app:3 collect
rank n1
fence app:0,app:1 collect
fence app:1,app:2
rank n1
fence app:1,app:2
get-now app:0 card
rank n2
fence app:0,app:3 collect
""",
        b"""\
race app:0 4 app:2 2 key app:0 card on app:2,app:3
findings 1
""",
    ),
    Anywhere(
        "cards by leaders, ranks mapped by slot",
        b"""\
rehearsal 1
node n0
node n1
job app
rank n0
put global card 10.0.0.1:7000
commit
fence app:0,app:2 collect
fence app:0,app:1
rank n0
fence app:0,app:1
get-now app:2 card
rank n1
put global card 10.0.0.2:7000
commit
fence app:0,app:2 collect
fence app:2,app:3
rank n1
fence app:2,app:3
get-now app:0 card
""",
        b"""\
findings 0
differs app:1 2 get-now key app:2 card near PMIX_SUCCESS alone PMIX_ERR_NOT_FOUND
differs app:3 2 get-now key app:0 card near PMIX_SUCCESS alone PMIX_ERR_NOT_FOUND
differing 2
""",
    ),
    Anywhere(
        "a ring of ranks that ask without waiting, one a node",
        b"""\
rehearsal 1
node n0
node n1
node n2
node n3
job app
rank n0
put global card 10.0.0.1:7000
commit
get-now app:1 card
get app:1 card
rank n1
put global card 10.0.1.1:7000
commit
get-now app:2 card
get app:2 card
rank n2
put global card 10.0.2.1:7000
commit
get-now app:3 card
get app:3 card
rank n3
put global card 10.0.3.1:7000
commit
get-now app:0 card
get app:0 card
""",
        b"""\
race app:0 2 app:3 3 key app:0 card on app:0,app:3
race app:0 3 app:1 2 key app:1 card on app:0,app:1
race app:1 3 app:2 2 key app:2 card on app:1,app:2
race app:2 3 app:3 2 key app:3 card on app:2,app:3
findings 4
""",
    ),
    Anywhere(
        "a get-now that an earlier get orders",
        b"""\
rehearsal 1
node n0
job app
rank n0
put global card 10.0.0.1:7000
put global ready yes
commit
rank n0
get app:0 ready
get-now app:0 card
""",
        b"""\
findings 0
differs app:1 2 get-now key app:0 card near PMIX_SUCCESS alone PMIX_ERR_NOT_FOUND
differing 1
""",
    ),
    Anywhere(
        "near whatever the scope",
        b"""\
rehearsal 1
node n0
node n1
job app
rank n0
put remote k v
commit
rank n1
get-now app:0 k
""",
        b"""\
race app:0 2 app:1 1 key app:0 k on app:0,app:1
findings 1
""",
    ),
    Anywhere(
        "no placement changes these",
        b"""\
rehearsal 1
node n0
node n1
job app
rank n0
put global k a
put global k b
publish x 1
rank n1
publish x 2
""",
        b"""\
rewrite app:0 1 2 k
race app:0 3 app:1 1 name x
findings 2
""",
    ),
    Anywhere(
        "scopes",
        b"""\
rehearsal 1
node n0
node n1
job app
rank n0
put local l v
put remote r v
put global g v
commit
fence all collect
rank n1
fence all collect
get app:0 l
get app:0 r
get app:0 g
get-now app:0 l
get-now app:0 r
get-now app:0 g
get-now app:0 z
get app:0 PMIX_HOSTNAME
""",
        b"""\
findings 0
differs app:1 2 get key app:0 l near PMIX_SUCCESS alone PMIX_ERR_EXISTS_OUTSIDE_SCOPE
differs app:1 3 get key app:0 r near PMIX_ERR_EXISTS_OUTSIDE_SCOPE alone PMIX_SUCCESS
differs app:1 5 get-now key app:0 l near PMIX_SUCCESS alone PMIX_ERR_NOT_FOUND
differs app:1 6 get-now key app:0 r near PMIX_ERR_EXISTS_OUTSIDE_SCOPE alone PMIX_SUCCESS
differing 4
""",
    ),
    Anywhere(
        "unanswered calls do not differ",
        b"""\
rehearsal 1
node n0
node n1
job app
rank n0
put local k v
commit
rank n1
lookup-wait x
get app:0 k
""",
        b"""\
findings 0
differing 0
""",
    ),
    Anywhere(
        "reader is sure",
        b"""\
rehearsal 1
node n0
node n1
job app
rank n0
put global k v
commit
fence app:0,app:1 collect
fence app:0,app:2 collect
rank n1
fence app:0,app:1 collect
get-now app:0 k
rank n1
fence app:0,app:2 collect
""",
        b"""\
findings 0
differing 0
""",
    ),
    Anywhere(
        "neighbour not sure",
        b"""\
rehearsal 1
node n0
node n1
job app
rank n0
put global k v
commit
fence app:0,app:1 collect
fence app:0,app:3 collect
rank n1
fence app:0,app:1 collect
fence app:1,app:2
rank n1
fence app:1,app:2
get-now app:0 k
rank n0
fence app:0,app:3 collect
""",
        b"""\
race app:0 4 app:2 2 key app:0 k on app:2,app:3
findings 1
""",
    ),
    Anywhere(
        "every neighbour is sure",
        b"""\
rehearsal 1
node n0
node n1
job app
rank n0
put global k v
commit
fence app:0,app:1,app:3 collect
fence app:0,app:3 collect
rank n1
fence app:0,app:1,app:3 collect
fence app:1,app:2
rank n1
fence app:1,app:2
get-now app:0 k
rank n0
fence app:0,app:1,app:3 collect
fence app:0,app:3 collect
""",
        b"""\
findings 0
differs app:2 2 get-now key app:0 k near PMIX_SUCCESS alone PMIX_ERR_NOT_FOUND
differing 1
""",
    ),
    Anywhere(
        "the neighbour is the third member",
        b"""\
rehearsal 1
node n0
node n1
job app
rank n0
put global k v
commit
fence app:0,app:1 collect
fence app:0,app:1,app:3 collect
rank n1
fence app:0,app:1 collect
fence app:1,app:2
fence app:0,app:1,app:3 collect
rank n1
fence app:1,app:2
get-now app:0 k
rank n0
fence app:0,app:1,app:3 collect
""",
        b"""\
race app:0 4 app:2 2 key app:0 k on app:2,app:3
findings 1
""",
    ),
    Anywhere(
        "two late fences of one set",
        b"""\
rehearsal 1
node n0
node n1
job app
rank n0
put global k v
commit
fence app:0,app:2 collect
fence app:0,app:2 collect
rank n1
get app:0 k
get-now app:0 k
rank n1
fence app:0,app:2 collect
fence app:0,app:2 collect
""",
        b"""\
race app:0 3 app:1 2 key app:0 k on app:1,app:2
race app:0 4 app:1 2 key app:0 k on app:1,app:2
findings 2
""",
    ),
    Anywhere(
        "get before an arrival",
        b"""\
rehearsal 1
node n0
node n1
job app
rank n0
put global k v
commit
fence app:0,app:2 collect
rank n1
get app:0 k
get-now app:0 k
fence app:1,app:2
rank n1
fence app:1,app:2
fence app:0,app:2 collect
""",
        b"""\
findings 0
differs app:1 2 get-now key app:0 k near PMIX_SUCCESS alone PMIX_ERR_NOT_FOUND
differing 1
""",
    ),
    Anywhere(
        "kept get of a neighbour",
        b"""\
rehearsal 2
keep
node n0
node n1
job app
rank n0
put global k v
commit
rank n1
get app:0 k
rank n0
get app:0 ready
get-now app:0 k
""",
        b"""\
findings 0
differing 0
""",
    ),
    Anywhere(
        "kept get races",
        b"""\
rehearsal 2
keep
node n0
node n1
job app
rank n0
put global k v
put global ready y
commit
rank n1
get app:0 k
rank n0
get app:0 ready
get-now app:0 k
""",
        b"""\
race app:1 1 app:2 2 key app:0 k on app:1,app:2
findings 1
""",
    ),
    Anywhere(
        "two jobs",
        b"""\
rehearsal 1
node n0
node n1

job ocean
rank n0
put remote coupler 10.0.0.1:8000
commit
fence all
fence ocean:0,air:0 collect

rank n0
fence all
get-now ocean:0 coupler

job air
rank n1
fence all
fence air:0,ocean:0 collect
get-now ocean:0 coupler

rank n1
fence air:*
get ocean:0 coupler
""",
        b"""\
race ocean:0 4 ocean:1 2 key ocean:0 coupler on ocean:1,air:0
findings 1
""",
    ),
]
