"""Plans with two calls that race, and what is written of a witness: ends that differ as they are
written."""
from . import Shown

# Two ranks publish the same value under one name, and a third looks it up.
SAME_VALUE = b"""\
rehearsal 1
node n0
job app
rank n0
publish x v
rank n0
publish x v
rank n0
lookup x
"""

SHOWN = [
    Shown(
        "a lookup that brings the same value in both runs, and the publish",
        SAME_VALUE,
        "app:2 1 app:0 1",
        b"""\
shown app:0 1 publish
first PMIX_ERR_DUPLICATE_KEY
second PMIX_SUCCESS
order 3
app:1
app:2
app:0
order 3
app:0
app:1
app:2
""",
    ),
    Shown(
        "the same calls the other way round",
        SAME_VALUE,
        "app:0 1 app:2 1",
        b"""\
shown app:0 1 publish
first PMIX_SUCCESS
second PMIX_ERR_DUPLICATE_KEY
order 3
app:0
app:1
app:2
order 3
app:1
app:2
app:0
""",
    ),
    Shown(
        "a lookup that brings another value in each run",
        b"""\
rehearsal 1
node n0
job app
rank n0
publish x v
rank n0
publish x w
rank n0
lookup x
""",
        "app:2 1 app:0 1",
        b"""\
shown app:2 1 lookup
first PMIX_SUCCESS w
second PMIX_SUCCESS v
order 3
app:1
app:2
app:0
order 3
app:0
app:1
app:2
""",
    ),
    Shown(
        "a value that is taken away and published once more",
        b"""\
rehearsal 1
node n0
job app
rank n0
get app:1 k
lookup x
rank n0
publish x v
put global k 1
commit
unpublish x
put global m 2
commit
rank n0
get app:1 m
publish x v
""",
        "app:0 2 app:2 2",
        b"""\
not shown
No run that was tried shows this race. Another run may show it all the same.
""",
    ),
]
