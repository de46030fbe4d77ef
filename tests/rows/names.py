"""Plans with names that are published, and the report of each."""
from . import NOTHING, Reported

REPORTED = [
    Reported(
        "a lookup-wait of a name that is published once",
        b"""\
rehearsal 1
node n0
node n1
job app
rank n0
publish x 7
rank n1
lookup-wait x
""",
        b"""\
app:0 1 publish PMIX_SUCCESS
app:1 1 lookup-wait PMIX_SUCCESS 7
waiting 0
""",
        NOTHING,
    ),
    Reported(
        "a lookup-wait before the publish, in the file's order",
        b"""\
rehearsal 1
node n0
node n1
job app
rank n0
lookup-wait x
rank n1
publish x 7
""",
        b"""\
app:0 1 lookup-wait PMIX_SUCCESS 7
app:1 1 publish PMIX_SUCCESS
waiting 0
""",
        NOTHING,
    ),
    Reported(
        "a lookup-wait after an unpublish",
        b"""\
rehearsal 1
node n0
node n1
job app
rank n0
publish x 7
unpublish x
fence all
rank n1
fence all
lookup-wait x
""",
        b"""\
app:0 1 publish PMIX_SUCCESS
app:0 2 unpublish PMIX_SUCCESS
app:0 3 fence PMIX_SUCCESS
app:1 1 fence PMIX_SUCCESS
app:1 2 lookup-wait waiting
waiting 1
""",
        NOTHING,
    ),
    Reported(
        "a second publish is refused",
        b"""\
rehearsal 1
node n0
node n1
job app
rank n0
publish x 1
fence all
rank n1
fence all
publish x 2
""",
        b"""\
app:0 1 publish PMIX_SUCCESS
app:0 2 fence PMIX_SUCCESS
app:1 1 fence PMIX_SUCCESS
app:1 2 publish PMIX_ERR_DUPLICATE_KEY
waiting 0
""",
        NOTHING,
    ),
    Reported(
        "an unpublish of another's name changes nothing",
        b"""\
rehearsal 1
node n0
node n1
job app
rank n0
publish x 1
fence all
rank n1
fence all
unpublish x
lookup x
""",
        b"""\
app:0 1 publish PMIX_SUCCESS
app:0 2 fence PMIX_SUCCESS
app:1 1 fence PMIX_SUCCESS
app:1 2 unpublish PMIX_ERR_NOT_FOUND
app:1 3 lookup PMIX_SUCCESS 1
waiting 0
""",
        NOTHING,
    ),
    Reported(
        "a name that is published again after an unpublish",
        b"""\
rehearsal 1
node n0
job app
rank n0
lookup x
publish x 1
lookup x
unpublish x
lookup x
unpublish x
publish x 2
lookup-wait x
publish x 3
""",
        b"""\
app:0 1 lookup PMIX_ERR_NOT_FOUND
app:0 2 publish PMIX_SUCCESS
app:0 3 lookup PMIX_SUCCESS 1
app:0 4 unpublish PMIX_SUCCESS
app:0 5 lookup PMIX_ERR_NOT_FOUND
app:0 6 unpublish PMIX_ERR_NOT_FOUND
app:0 7 publish PMIX_SUCCESS
app:0 8 lookup-wait PMIX_SUCCESS 2
app:0 9 publish PMIX_ERR_DUPLICATE_KEY
waiting 0
""",
        NOTHING,
    ),
    Reported(
        "a name and a key of the same spelling",
        b"""\
rehearsal 1
node n0
job app
rank n0
publish k 1
put global k 2
get app:0 k
lookup k
""",
        b"""\
app:0 1 publish PMIX_SUCCESS
app:0 2 put PMIX_SUCCESS
app:0 3 get PMIX_SUCCESS 2
app:0 4 lookup PMIX_SUCCESS 1
waiting 0
""",
        NOTHING,
    ),
    Reported(
        "reserved names",
        b"""\
rehearsal 1
node n0
job app
rank n0
publish pmix.x 1
lookup PMIX_X
lookup-wait pmix
unpublish PMIX_RANK
""",
        b"""\
app:0 1 publish PMIX_ERR_BAD_PARAM
app:0 2 lookup PMIX_ERR_BAD_PARAM
app:0 3 lookup-wait PMIX_ERR_BAD_PARAM
app:0 4 unpublish PMIX_ERR_BAD_PARAM
waiting 0
""",
        NOTHING,
    ),
    Reported(
        "business cards by a fence, a get and a name",
        b"""\
rehearsal 1
node n0
node n1
job app
rank n0
put global k v
put global m w
commit
fence all collect
publish x 7
rank n0
get app:0 m
get-now app:0 k
fence all collect
rank n1
fence all collect
get-now app:0 k
lookup-wait x
""",
        b"""\
app:0 1 put PMIX_SUCCESS
app:0 2 put PMIX_SUCCESS
app:0 3 commit PMIX_SUCCESS
app:0 4 fence PMIX_SUCCESS
app:0 5 publish PMIX_SUCCESS
app:1 1 get PMIX_SUCCESS w
app:1 2 get-now PMIX_SUCCESS v
app:1 3 fence PMIX_SUCCESS
app:2 1 fence PMIX_SUCCESS
app:2 2 get-now PMIX_SUCCESS v
app:2 3 lookup-wait PMIX_SUCCESS 7
waiting 0
""",
        NOTHING,
    ),
]
