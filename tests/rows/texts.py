"""Plans, and the canonical text of each."""
from . import Canonical

CANONICAL = [
    Canonical(
        "a set that is the caller's job, spelt in three ways",
        b"""\
rehearsal 1
node n0
node n1
job app
rank n0
fence app:0,app:1
fence all
rank n1
fence app:1,app:0,app:1
""",
        b"""\
rehearsal 1
node n0
node n1
job app
rank n0
fence all
fence all
rank n1
fence all
""",
    ),
    Canonical(
        "comments, blank lines, tabs and carriage returns",
        b"""\
# a note\r

rehearsal\t1\r

  node n0 \r
# between
job app\r
rank  n0
put   global\tk v\r
commit

get app:0 k""",
        b"""\
rehearsal 1
node n0
job app
rank n0
put global k v
commit
get app:0 k
""",
    ),
    Canonical(
        "sets of two jobs, whole and in part",
        b"""\
rehearsal 1
node n0
job a
rank n0
fence b:1,a:0,b:0
fence b:1,a:1,a:0
fence a:1,a:0,a:0
rank n0
fence a:*
job b
rank n0
fence all
rank n0
fence b:*,a:*
fence a:0,b:*,a:1
""",
        b"""\
rehearsal 1
node n0
job a
rank n0
fence a:0,b:*
fence a:*,b:1
fence all
rank n0
fence all
job b
rank n0
fence all
rank n0
fence a:*,b:*
fence a:*,b:*
""",
    ),
    Canonical(
        "a job named all, and one without processes",
        b"""\
rehearsal 1
node n0
job none
job all
rank n0
fence all:0
fence all:0,all:1
rank n0
fence all:1,none:*
fence app:0,all:*
job app
rank n0
fence all:0,all:1,app:0
fence app:*
""",
        b"""\
rehearsal 1
node n0
job none
job all
rank n0
fence all:0
fence all
rank n0
fence all:1
fence all:*,app:*
job app
rank n0
fence all:*,app:*
fence all
""",
    ),
    Canonical(
        "every call, and nodes and jobs that nothing names",
        b"""\
rehearsal 1
node spare
node n0
job app
rank n0
put local k 1
put remote m 2
put global PMIX_X 3
commit
fence all collect
get app:1 PMIX_RANK
get-now later:0 k
publish x 7
lookup x
lookup-wait x
unpublish x
rank n0
job later
rank n0
job none
""",
        b"""\
rehearsal 1
node spare
node n0
job app
rank n0
put local k 1
put remote m 2
put global PMIX_X 3
commit
fence all collect
get app:1 PMIX_RANK
get-now later:0 k
publish x 7
lookup x
lookup-wait x
unpublish x
rank n0
job later
rank n0
job none
""",
    ),
    Canonical(
        "keep",
        b"""\
# version 2
rehearsal  2

 keep\t\r
node n0""",
        b"""\
rehearsal 2
keep
node n0
""",
    ),
]
