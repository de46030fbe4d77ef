"""Plans of version 2 in which calls take away all names of their rank: reports, findings, and where
the line is refused."""
from . import Checked, NOTHING, Refused, Reported

REPORTED = [
    Reported(
        "unpublish * takes away what its process published",
        b"""\
rehearsal 2
node n0
node n1
job app
rank n0
publish x 7
publish y 8
unpublish *
fence all
rank n1
fence all
lookup x
lookup y
""",
        b"""\
app:0 1 publish PMIX_SUCCESS
app:0 2 publish PMIX_SUCCESS
app:0 3 unpublish PMIX_SUCCESS
app:0 4 fence PMIX_SUCCESS
app:1 1 fence PMIX_SUCCESS
app:1 2 lookup PMIX_ERR_NOT_FOUND
app:1 3 lookup PMIX_ERR_NOT_FOUND
waiting 0
""",
        NOTHING,
    ),
    Reported(
        "unpublish * of nothing",
        b"""\
rehearsal 2
node n0
node n1
job app
rank n0
unpublish *
""",
        b"""\
app:0 1 unpublish PMIX_SUCCESS
waiting 0
""",
        NOTHING,
    ),
    Reported(
        "unpublish * leaves what another published",
        b"""\
rehearsal 2
node n0
job app
rank n0
publish x 1
fence all
fence all
lookup x
rank n0
fence all
publish x 2
unpublish *
fence all
""",
        b"""\
app:0 1 publish PMIX_SUCCESS
app:0 2 fence PMIX_SUCCESS
app:0 3 fence PMIX_SUCCESS
app:0 4 lookup PMIX_SUCCESS 1
app:1 1 fence PMIX_SUCCESS
app:1 2 publish PMIX_ERR_DUPLICATE_KEY
app:1 3 unpublish PMIX_SUCCESS
app:1 4 fence PMIX_SUCCESS
waiting 0
""",
        NOTHING,
    ),
    Reported(
        "a name is published again after unpublish *, and by another",
        b"""\
rehearsal 2
node n0
job app
rank n0
publish x 1
unpublish x
publish x 2
unpublish *
unpublish *
fence all
fence all
publish x 3
rank n0
fence all
lookup x
publish x 4
fence all
""",
        b"""\
app:0 1 publish PMIX_SUCCESS
app:0 2 unpublish PMIX_SUCCESS
app:0 3 publish PMIX_SUCCESS
app:0 4 unpublish PMIX_SUCCESS
app:0 5 unpublish PMIX_SUCCESS
app:0 6 fence PMIX_SUCCESS
app:0 7 fence PMIX_SUCCESS
app:0 8 publish PMIX_ERR_DUPLICATE_KEY
app:1 1 fence PMIX_SUCCESS
app:1 2 lookup PMIX_ERR_NOT_FOUND
app:1 3 publish PMIX_SUCCESS
app:1 4 fence PMIX_SUCCESS
waiting 0
""",
        NOTHING,
    ),
    Reported(
        "calls that take away names of others don't race",
        b"""\
rehearsal 2
node n0
job app
rank n0
publish pmix.x 1
publish a 1
unpublish *
rank n0
publish b 1
unpublish *
lookup pmix.x
""",
        b"""\
app:0 1 publish PMIX_ERR_BAD_PARAM
app:0 2 publish PMIX_SUCCESS
app:0 3 unpublish PMIX_SUCCESS
app:1 1 publish PMIX_SUCCESS
app:1 2 unpublish PMIX_SUCCESS
app:1 3 lookup PMIX_ERR_BAD_PARAM
waiting 0
""",
        NOTHING,
    ),
]

# Those with findings.
CHECKED = [
    Checked(
        "unpublish * races on several names",
        b"""\
rehearsal 2
node n0
node n1
job app
rank n0
publish x 1
publish y 2
unpublish *
rank n1
publish y 3
publish x 4
unpublish *
""",
        b"""\
race app:0 1 app:1 2 name x
race app:0 1 app:1 3 name x
race app:0 2 app:1 1 name y
race app:0 2 app:1 3 name y
race app:0 3 app:1 1 name y
race app:0 3 app:1 2 name x
race app:0 3 app:1 3 name x
race app:0 3 app:1 3 name y
findings 8
""",
    ),
    Checked(
        (
            "a name whose publisher has an unpublish * isn't published once, and names of one "
            "pair stand by their bytes"
        ),
        b"""\
rehearsal 2
node n0
job app
rank n0
unpublish *
publish ab 1
publish b 1
publish a 1
publish B 1
rank n0
lookup-wait b
unpublish *
publish a 2
publish B 2
publish ab 2
""",
        b"""\
race app:0 1 app:1 1 name b
race app:0 1 app:1 2 name B
race app:0 1 app:1 2 name a
race app:0 1 app:1 2 name ab
race app:0 1 app:1 3 name a
race app:0 1 app:1 4 name B
race app:0 1 app:1 5 name ab
race app:0 2 app:1 2 name ab
race app:0 2 app:1 5 name ab
race app:0 3 app:1 1 name b
race app:0 4 app:1 2 name a
race app:0 4 app:1 3 name a
race app:0 5 app:1 2 name B
race app:0 5 app:1 4 name B
findings 14
""",
    ),
]

REFUSED = [
    Refused(
        "unpublish * in version 1",
        b"""\
rehearsal 1
node n0
job app
rank n0
unpublish *
""",
        "BadLine 5",
    ),
    Refused(
        "unpublish * above the first rank",
        b"""\
rehearsal 2
node n0
job app
unpublish *
""",
        "BadLine 4",
    ),
    Refused(
        "unpublish * and a word",
        b"""\
rehearsal 2
node n0
job app
rank n0
unpublish * x
""",
        "BadLine 5",
    ),
    Refused(
        "another call of a star",
        b"""\
rehearsal 2
node n0
job app
rank n0
lookup *
""",
        "BadLine 5",
    ),
]
