"""Plans, and on which libraries they are portable, on their nodes and on every placement, worked
out apart from the checker by the conditions of wire_library_laws."""
from typing import NamedTuple


class Told(NamedTuple):
    """A plan, its lines with ` / ` between them; what is told behind its findings, and what on
    every placement, each as lines with ` / ` between them."""

    name: str
    lines: str
    here: str
    anywhere: str


ROWS = [
    Told(
        "one commit",
        "rehearsal 1 / node n0 / node n1 / job app / rank n0 / put global a 1 / commit / rank n1 "
        "/ get app:0 a / rank n0 / get app:0 a",
        "unportable app:2 1 get near-get 4.2 / portable 5.0,7.0",
        "unportable app:1 1 get near-get 4.2 / unportable app:2 1 get near-get 4.2 / portable "
        "5.0,7.0",
    ),
    Told(
        "near second commit",
        "rehearsal 1 / node n0 / job app / rank n0 / put global a 1 / commit / put global z 2 / "
        "commit / rank n0 / get app:0 z",
        "unportable app:1 1 get near-get 4.2,5.0,7.0 / portable none",
        "unportable app:1 1 get far-get 4.2 / unportable app:1 1 get near-get 4.2,5.0,7.0 / "
        "portable none",
    ),
    Told(
        "near own commit",
        "rehearsal 1 / node n0 / job app / rank n0 / put global a 1 / commit / rank n0 / get "
        "app:0 a",
        "unportable app:1 1 get near-get 4.2 / portable 5.0,7.0",
        "unportable app:1 1 get near-get 4.2 / portable 5.0,7.0",
    ),
    Told(
        "near after fence",
        "rehearsal 1 / node n0 / job app / rank n0 / put global a 1 / commit / fence all / put "
        "global z 2 / commit / rank n0 / fence all / get app:0 z",
        "unportable app:1 2 get near-get 4.2 / portable 5.0,7.0",
        "unportable app:1 2 get far-get 4.2 / unportable app:1 2 get near-get 4.2 / portable "
        "5.0,7.0",
    ),
    Told(
        "near waited for",
        "rehearsal 1 / node n0 / job app / rank n0 / put global a 1 / commit / put global z 2 / "
        "commit / fence all / rank n0 / fence all / get app:0 z",
        "portable 4.2,5.0,7.0",
        "portable 4.2,5.0,7.0",
    ),
    Told(
        "near never",
        "rehearsal 1 / node n0 / job app / rank n0 / put global a 1 / commit / rank n0 / get "
        "app:0 z",
        "unportable app:1 1 get near-get 4.2,5.0,7.0 / portable none",
        "unportable app:1 1 get far-get 4.2 / unportable app:1 1 get near-get 4.2,5.0,7.0 / "
        "portable none",
    ),
    Told(
        "far second commit",
        "rehearsal 1 / node n0 / node n1 / job app / rank n0 / put global a 1 / commit / put "
        "global z 2 / commit / rank n1 / get app:0 z",
        "unportable app:1 1 get far-get 4.2 / portable 5.0,7.0",
        "unportable app:1 1 get far-get 4.2 / unportable app:1 1 get near-get 4.2,5.0,7.0 / "
        "portable none",
    ),
    Told(
        "far waited for",
        "rehearsal 1 / node n0 / node n1 / job app / rank n0 / put global a 1 / commit / put "
        "global z 2 / commit / fence all / rank n1 / fence all / get app:0 z",
        "portable 4.2,5.0,7.0",
        "portable 4.2,5.0,7.0",
    ),
    Told(
        "far never",
        "rehearsal 1 / node n0 / node n1 / job app / rank n0 / put global a 1 / commit / rank n1 "
        "/ get app:0 z",
        "unportable app:1 1 get far-get 4.2 / portable 5.0,7.0",
        "unportable app:1 1 get far-get 4.2 / unportable app:1 1 get near-get 4.2,5.0,7.0 / "
        "portable none",
    ),
    Told(
        "mates",
        "rehearsal 1 / node n0 / node n1 / job app / rank n0 / put global a 1 / commit / put "
        "global z 2 / commit / rank n1 / get app:0 a / rank n1 / get app:0 z",
        "unportable app:2 1 get far-get 4.2 / unportable app:2 1 get mates 4.2,5.0,7.0 / "
        "portable none",
        "unportable app:1 1 get near-get 4.2 / unportable app:2 1 get far-get 4.2 / unportable "
        "app:2 1 get mates 4.2,5.0,7.0 / unportable app:2 1 get near-get 4.2,5.0,7.0 / portable "
        "none",
    ),
    Told(
        "mate sent early",
        "rehearsal 2 / node n0 / node n1 / job app / rank n0 / put global a 1 / commit / put "
        "global z 2 / commit / publish go 1 / rank n1 / get app:0 a / rank n1 / lookup-wait go / "
        "get app:0 z",
        "unportable app:2 2 get mates 4.2,5.0,7.0 / portable none",
        "unportable app:1 1 get near-get 4.2 / unportable app:2 2 get mates 4.2,5.0,7.0 / "
        "portable none",
    ),
    Told(
        "mates in turn",
        "rehearsal 2 / node n0 / node n1 / job app / rank n0 / put global a 1 / commit / put "
        "global z 2 / commit / publish go 1 / rank n1 / get app:0 a / publish on 1 / rank n1 / "
        "lookup-wait go / lookup-wait on / get app:0 z",
        "portable 4.2,5.0,7.0",
        "unportable app:1 1 get near-get 4.2 / portable 5.0,7.0",
    ),
    Told(
        "mates on two nodes",
        "rehearsal 2 / node n0 / node n1 / node n2 / job app / rank n0 / put global a 1 / commit "
        "/ put global z 2 / commit / publish go 1 / rank n1 / get app:0 a / rank n2 / "
        "lookup-wait go / get app:0 z",
        "portable 4.2,5.0,7.0",
        "unportable app:1 1 get near-get 4.2 / unportable app:2 2 get mates 4.2,5.0,7.0 / "
        "portable none",
    ),
    Told(
        "mate never",
        "rehearsal 1 / node n0 / node n1 / job app / rank n0 / put global a 1 / commit / rank n1 "
        "/ get app:0 b / rank n1 / get app:0 a",
        "unportable app:1 1 get far-get 4.2 / unportable app:1 1 get mates 4.2,5.0,7.0 / "
        "portable none",
        "unportable app:1 1 get far-get 4.2 / unportable app:1 1 get mates 4.2,5.0,7.0 / "
        "unportable app:1 1 get near-get 4.2,5.0,7.0 / unportable app:2 1 get near-get 4.2 / "
        "portable none",
    ),
    Told(
        "mate later key first",
        "rehearsal 2 / node n0 / node n1 / job app / rank n0 / put global a 1 / commit / "
        "lookup-wait go / put global z 2 / commit / rank n1 / get app:0 z / rank n1 / get app:0 "
        "a / publish go 1",
        "unportable app:1 1 get far-get 4.2 / unportable app:1 1 get mates 4.2,5.0,7.0 / "
        "portable none",
        "unportable app:1 1 get far-get 4.2 / unportable app:1 1 get mates 4.2,5.0,7.0 / "
        "unportable app:1 1 get near-get 4.2,5.0,7.0 / unportable app:2 1 get near-get 4.2 / "
        "portable none",
    ),
    Told(
        "near remote",
        "rehearsal 1 / node n0 / job app / rank n0 / put remote a 1 / commit / rank n0 / get "
        "app:0 a",
        "unportable app:1 1 get near-get 4.2 / unportable app:1 1 get near-remote 4.2,5.0,7.0 / "
        "portable none",
        "unportable app:1 1 get near-get 4.2 / unportable app:1 1 get near-remote 4.2,5.0,7.0 / "
        "portable none",
    ),
    Told(
        "far local",
        "rehearsal 1 / node n0 / node n1 / job app / rank n0 / put local a 1 / commit / rank n1 "
        "/ get app:0 a",
        "unportable app:1 1 get far-local 4.2,5.0,7.0 / portable none",
        "unportable app:1 1 get far-local 4.2,5.0,7.0 / unportable app:1 1 get near-get 4.2 / "
        "portable none",
    ),
    Told(
        "near now remote",
        "rehearsal 1 / node n0 / job app / rank n0 / put remote a 1 / commit / fence all / rank "
        "n0 / fence all / get-now app:0 a",
        "unportable app:1 2 get-now near-remote 4.2,5.0,7.0 / portable none",
        "unportable app:1 2 get-now near-remote 4.2,5.0,7.0 / portable none",
    ),
    Told(
        "near now remote first",
        "rehearsal 1 / node n0 / job app / rank n0 / fence all / put remote a 1 / commit / rank "
        "n0 / get-now app:0 a / fence all",
        "portable 4.2,5.0,7.0",
        "portable 4.2,5.0,7.0",
    ),
    Told(
        "now and mate",
        "rehearsal 1 / node n0 / node n1 / job app / rank n0 / put global a 1 / commit / rank n1 "
        "/ get app:0 a / rank n1 / get-now app:0 a",
        "unportable app:2 1 get-now get-now 4.2,5.0,7.0 / portable none",
        "unportable app:1 1 get near-get 4.2 / unportable app:2 1 get-now get-now 4.2,5.0,7.0 / "
        "portable none",
    ),
    Told(
        "now before mate",
        "rehearsal 2 / node n0 / node n1 / job app / rank n0 / put global a 1 / commit / rank n1 "
        "/ lookup-wait go / get app:0 a / rank n1 / get-now app:0 a / publish go 1",
        "portable 4.2,5.0,7.0",
        "unportable app:1 2 get near-get 4.2 / portable 5.0,7.0",
    ),
    Told(
        "now after fence",
        "rehearsal 1 / node n0 / node n1 / job app / rank n0 / put global a 1 / commit / fence "
        "all collect / rank n1 / fence all collect / get-now app:0 a",
        "unportable app:1 2 get-now get-now 5.0 / portable 4.2,7.0",
        "unportable app:1 2 get-now get-now 5.0 / portable 4.2,7.0",
    ),
    Told(
        "now before fence",
        "rehearsal 1 / node n0 / node n1 / job app / rank n0 / put global a 1 / commit / fence "
        "all collect / rank n1 / get-now app:0 a / fence all collect",
        "portable 4.2,5.0,7.0",
        "portable 4.2,5.0,7.0",
    ),
    Told(
        "now after get kept",
        "rehearsal 2 / keep / node n0 / node n1 / job app / rank n0 / put global a 1 / commit / "
        "rank n1 / get app:0 a / get-now app:0 a",
        "portable 4.2,5.0,7.0",
        "unportable app:1 1 get near-get 4.2 / portable 5.0,7.0",
    ),
    Told(
        "now after get",
        "rehearsal 1 / node n0 / node n1 / job app / rank n0 / put global a 1 / commit / rank n1 "
        "/ get app:0 a / get-now app:0 a",
        "unportable app:1 2 get-now get-now 4.2,5.0,7.0 / portable none",
        "unportable app:1 1 get near-get 4.2 / unportable app:1 2 get-now get-now 4.2,5.0,7.0 / "
        "portable none",
    ),
    Told(
        "now after get of other",
        "rehearsal 1 / node n0 / node n1 / job app / rank n0 / put global a 1 / put global b 2 / "
        "commit / rank n1 / get app:0 b / get-now app:0 a",
        "unportable app:1 2 get-now get-now 4.2,5.0,7.0 / portable none",
        "unportable app:1 1 get near-get 4.2 / unportable app:1 2 get-now get-now 4.2,5.0,7.0 / "
        "portable none",
    ),
    Told(
        "now and get ends first",
        "rehearsal 1 / node n0 / node n1 / job app / rank n0 / put global b 1 / commit / fence "
        "all / put global a 2 / commit / rank n1 / get app:0 b / fence all / get-now app:0 a",
        "portable 4.2,5.0,7.0",
        "unportable app:1 1 get near-get 4.2 / portable 5.0,7.0",
    ),
    Told(
        "fence spelling",
        "rehearsal 1 / node n0 / node n1 / job app / rank n0 / fence all / rank n1 / fence "
        "app:0,app:1",
        "unportable app:1 1 fence fence-spelling 4.2,5.0,7.0 / portable none",
        "unportable app:1 1 fence fence-spelling 4.2,5.0,7.0 / portable none",
    ),
    Told(
        "fence collect",
        "rehearsal 1 / node n0 / node n1 / job app / rank n0 / fence all collect / rank n1 / "
        "fence all",
        "unportable app:0 1 fence fence-collect 4.2,5.0,7.0 / portable none",
        "unportable app:0 1 fence fence-collect 4.2,5.0,7.0 / portable none",
    ),
    Told(
        "fence jobs",
        "rehearsal 1 / node n0 / node n1 / job app / rank n0 / fence app:*,web:* / job web / "
        "rank n1 / fence app:*,web:*",
        "unportable app:0 1 fence fence-jobs 4.2 / portable 5.0,7.0",
        "unportable app:0 1 fence fence-jobs 4.2 / portable 5.0,7.0",
    ),
    Told(
        "fence repeats",
        "rehearsal 1 / node n0 / node n1 / job app / rank n0 / fence app:0,app:1,app:1 / rank n1 "
        "/ fence app:0,app:1,app:1",
        "unportable app:0 1 fence fence-repeats 4.2,5.0,7.0 / portable none",
        "unportable app:0 1 fence fence-repeats 4.2,5.0,7.0 / portable none",
    ),
    Told(
        "rewrite",
        "rehearsal 1 / node n0 / job app / rank n0 / put global a 1 / put global a 2 / commit",
        "unportable app:0 2 put rewrite 4.2,5.0,7.0 / portable none",
        "unportable app:0 2 put rewrite 4.2,5.0,7.0 / portable none",
    ),
    Told(
        "published again",
        "rehearsal 2 / node n0 / job app / rank n0 / publish x 1 / unpublish x / publish x 2",
        "portable 4.2,5.0,7.0",
        "portable 4.2,5.0,7.0",
    ),
    Told(
        "published twice",
        "rehearsal 2 / node n0 / job app / rank n0 / publish x 1 / publish x 2",
        "unportable app:0 2 publish published 4.2,5.0,7.0 / portable none",
        "unportable app:0 2 publish published 4.2,5.0,7.0 / portable none",
    ),
    Told(
        "unpublish of others",
        "rehearsal 2 / node n0 / job app / rank n0 / publish x 1 / fence all / rank n0 / fence "
        "all / unpublish x",
        "unportable app:1 2 unpublish unpublished 4.2,5.0,7.0 / portable none",
        "unportable app:1 2 unpublish unpublished 4.2,5.0,7.0 / portable none",
    ),
    Told(
        "unpublish all",
        "rehearsal 2 / node n0 / job app / rank n0 / publish x 1 / unpublish *",
        "unportable app:0 2 unpublish unpublish-all 4.2,5.0,7.0 / portable none",
        "unportable app:0 2 unpublish unpublish-all 4.2,5.0,7.0 / portable none",
    ),
    Told(
        "reserved",
        "rehearsal 1 / node n0 / job app / rank n0 / get app:0 PMIX_RANK / rank n0 / get app:0 "
        "PMIX_HOSTNAME",
        "unportable app:0 1 get reserved 4.2,5.0,7.0 / portable none",
        "unportable app:0 1 get reserved 4.2,5.0,7.0 / portable none",
    ),
    Told(
        "dead calls",
        "rehearsal 1 / node n0 / node n1 / job app / rank n0 / get app:0 never / put global a 1 "
        "/ commit / put global z 2 / commit / rank n1 / get app:0 z",
        "portable 4.2,5.0,7.0",
        "portable 4.2,5.0,7.0",
    ),
    Told(
        "own keys",
        "rehearsal 1 / node n0 / job app / rank n0 / put global a 1 / get app:0 a / commit / put "
        "global z 2 / commit / get app:0 z / get-now app:0 z",
        "portable 4.2,5.0,7.0",
        "portable 4.2,5.0,7.0",
    ),
    Told(
        "near third commit",
        "rehearsal 1 / node n0 / job app / rank n0 / put global a 1 / commit / fence all / put "
        "global b 2 / commit / put global z 3 / commit / rank n0 / fence all / get app:0 z",
        "unportable app:1 2 get near-get 4.2,5.0,7.0 / portable none",
        "unportable app:1 2 get far-get 4.2 / unportable app:1 2 get near-get 4.2,5.0,7.0 / "
        "portable none",
    ),
    Told(
        "now after get of earlier key",
        "rehearsal 1 / node n0 / node n1 / job app / rank n0 / put global b 1 / commit / put "
        "global a 2 / commit / fence all collect / rank n1 / get app:0 b / fence all collect / "
        "get-now app:0 a",
        "unportable app:1 3 get-now get-now 5.0 / portable 4.2,7.0",
        "unportable app:1 1 get near-get 4.2 / unportable app:1 3 get-now get-now 5.0 / portable "
        "7.0",
    ),
    Told(
        "now after get of later key",
        "rehearsal 1 / node n0 / node n1 / job app / rank n0 / put global a 1 / commit / put "
        "global z 2 / commit / fence all collect / rank n1 / get app:0 z / fence all collect / "
        "get-now app:0 a",
        "unportable app:1 1 get far-get 4.2 / portable 5.0,7.0",
        "unportable app:1 1 get far-get 4.2 / unportable app:1 1 get near-get 4.2,5.0,7.0 / "
        "portable none",
    ),
    Told(
        "now after fence of others",
        "rehearsal 2 / node n0 / node n1 / job app / rank n0 / put global a 1 / commit / fence "
        "app:0,app:1 collect / publish go 1 / rank n1 / fence app:0,app:1 collect / rank n1 / "
        "lookup-wait go / get-now app:0 a",
        "unportable app:2 2 get-now get-now 4.2,5.0,7.0 / portable none",
        "unportable app:2 2 get-now get-now 4.2,5.0,7.0 / portable none",
    ),
    Told(
        "dead get",
        "rehearsal 1 / node n0 / job app / rank n0 / put global a 1 / commit / put global z 2 / "
        "commit / rank n0 / get app:1 own / get app:0 z",
        "portable 4.2,5.0,7.0",
        "portable 4.2,5.0,7.0",
    ),
    Told(
        "mates by a later commit",
        "rehearsal 1 / node n0 / node n1 / job app / rank n0 / put global a 1 / commit / put "
        "global b 2 / commit / put global z 3 / commit / rank n1 / get app:0 b / rank n1 / get "
        "app:0 z",
        "unportable app:1 1 get far-get 4.2 / unportable app:1 1 get mates 4.2 / unportable "
        "app:2 1 get far-get 4.2 / unportable app:2 1 get mates 4.2,5.0,7.0 / portable none",
        "unportable app:1 1 get far-get 4.2 / unportable app:1 1 get mates 4.2 / unportable "
        "app:1 1 get near-get 4.2,5.0,7.0 / unportable app:2 1 get far-get 4.2 / unportable "
        "app:2 1 get mates 4.2,5.0,7.0 / unportable app:2 1 get near-get 4.2,5.0,7.0 / portable "
        "none",
    ),
    Told(
        "local now",
        "rehearsal 1 / node n0 / node n1 / job app / rank n0 / put local a 1 / commit / fence "
        "all collect / rank n1 / fence all collect / get-now app:0 a",
        "portable 4.2,5.0,7.0",
        "portable 4.2,5.0,7.0",
    ),
    Told(
        "now after fence of two jobs",
        "rehearsal 1 / node n0 / node n1 / job app / rank n0 / put global a 1 / commit / fence "
        "app:*,web:* collect / job web / rank n1 / fence app:*,web:* collect / get-now app:0 a",
        "unportable app:0 3 fence fence-jobs 4.2 / unportable web:0 2 get-now get-now "
        "4.2,5.0,7.0 / portable none",
        "unportable app:0 3 fence fence-jobs 4.2 / unportable web:0 2 get-now get-now "
        "4.2,5.0,7.0 / portable none",
    ),
    Told(
        "fence in another order",
        "rehearsal 1 / node n0 / job app / rank n0 / fence app:0,app:1 / fence all / rank n0 / "
        "fence app:1,app:0 / fence app:*",
        "unportable app:0 2 fence fence-spelling 4.2,5.0,7.0 / portable none",
        "unportable app:0 2 fence fence-spelling 4.2,5.0,7.0 / portable none",
    ),
    Told(
        "fence spelt as the job",
        "rehearsal 1 / node n0 / job app / rank n0 / fence all / rank n0 / fence app:*",
        "portable 4.2,5.0,7.0",
        "portable 4.2,5.0,7.0",
    ),
    Told(
        "fence spelt otherwise in turn",
        "rehearsal 1 / node n0 / job app / rank n0 / fence all / fence app:0,app:1 / rank n0 / "
        "fence all / fence app:0,app:1",
        "unportable app:0 2 fence fence-spelling 4.2,5.0,7.0 / portable none",
        "unportable app:0 2 fence fence-spelling 4.2,5.0,7.0 / portable none",
    ),
    Told(
        "fences in turn",
        "rehearsal 1 / node n0 / job app / rank n0 / fence all collect / fence all / rank n0 / "
        "fence all collect / fence all",
        "portable 4.2,5.0,7.0",
        "portable 4.2,5.0,7.0",
    ),
    Told(
        "dead fence",
        "rehearsal 1 / node n0 / job app / rank n0 / fence all / rank n0 / get app:0 never / "
        "fence app:0,app:1",
        "portable 4.2,5.0,7.0",
        "portable 4.2,5.0,7.0",
    ),
    Told(
        "racy publishes",
        "rehearsal 2 / node n0 / job app / rank n0 / publish x 1 / rank n0 / publish x 2",
        "unportable app:0 1 publish published 4.2,5.0,7.0 / unportable app:1 1 publish published "
        "4.2,5.0,7.0 / portable none",
        "unportable app:0 1 publish published 4.2,5.0,7.0 / unportable app:1 1 publish published "
        "4.2,5.0,7.0 / portable none",
    ),
    Told(
        "racy unpublish",
        "rehearsal 2 / node n0 / job app / rank n0 / publish x 1 / unpublish x / rank n0 / "
        "lookup-wait x",
        "unportable app:0 1 publish published 4.2,5.0,7.0 / unportable app:0 2 unpublish "
        "unpublished 4.2,5.0,7.0 / portable none",
        "unportable app:0 1 publish published 4.2,5.0,7.0 / unportable app:0 2 unpublish "
        "unpublished 4.2,5.0,7.0 / portable none",
    ),
    Told(
        "reserved of all kinds",
        "rehearsal 2 / node n0 / job app / rank n0 / put global PMIX_X 1 / publish pmix.x 1 / "
        "get-now app:0 PMIX_NODE_RANK / get-now app:0 PMIX_Y / get app:0 PMIX_Y / job web / rank "
        "n0 / get-now app:0 PMIX_HOSTNAME",
        "unportable app:0 1 put reserved 4.2,5.0,7.0 / unportable app:0 2 publish reserved "
        "4.2,5.0,7.0 / unportable app:0 5 get reserved 4.2,5.0,7.0 / unportable web:0 1 get-now "
        "reserved 4.2,5.0,7.0 / portable none",
        "unportable app:0 1 put reserved 4.2,5.0,7.0 / unportable app:0 2 publish reserved "
        "4.2,5.0,7.0 / unportable app:0 5 get reserved 4.2,5.0,7.0 / unportable web:0 1 get-now "
        "reserved 4.2,5.0,7.0 / portable none",
    ),
    Told(
        "unpublish all of nothing",
        "rehearsal 2 / node n0 / job app / rank n0 / unpublish *",
        "unportable app:0 1 unpublish unpublish-all 4.2,5.0,7.0 / portable none",
        "unportable app:0 1 unpublish unpublish-all 4.2,5.0,7.0 / portable none",
    ),
    Told(
        "whole job and a rank of it",
        "rehearsal 1 / node n0 / job app / rank n0 / fence app:*,app:0 / rank n0 / fence "
        "app:0,app:*",
        "unportable app:0 1 fence fence-repeats 4.2,5.0,7.0 / portable none",
        "unportable app:0 1 fence fence-repeats 4.2,5.0,7.0 / portable none",
    ),
    Told(
        "whole job and a rank of another",
        "rehearsal 1 / node n0 / job app / rank n0 / fence app:*,ap:0 / job ap / rank n0 / fence "
        "app:*,ap:0",
        "unportable app:0 1 fence fence-jobs 4.2 / portable 5.0,7.0",
        "unportable app:0 1 fence fence-jobs 4.2 / portable 5.0,7.0",
    ),
    Told(
        "key of the library's own",
        "rehearsal 1 / node n0 / job app / rank n0 / get-now app:1 pmix.appnum / get-now app:1 "
        "PMIX_APPNUM / get-now app:1 pmix.rank / get-now app:1 pmix / rank n0",
        "unportable app:0 1 get-now reserved 4.2,5.0,7.0 / portable none",
        "unportable app:0 1 get-now reserved 4.2,5.0,7.0 / portable none",
    ),
    Told(
        "late commits of two phases",
        "rehearsal 1 / node n0 / node n1 / job app / rank n0 / put global a 1 / commit / fence "
        "all / put global b 2 / commit / fence all / put global c 3 / commit / rank n1 / fence "
        "all / get app:0 b / fence all / get app:0 c / rank n1 / fence all / get app:0 b / fence "
        "all / get app:0 c",
        "unportable app:1 2 get far-get 4.2 / unportable app:1 2 get mates 4.2 / unportable app:1 "
        "4 get far-get 4.2 / unportable app:1 4 get mates 4.2 / unportable app:2 2 get far-get "
        "4.2 / unportable app:2 2 get mates 4.2 / unportable app:2 4 get far-get 4.2 / unportable "
        "app:2 4 get mates 4.2 / portable 5.0,7.0",
        "unportable app:1 2 get far-get 4.2 / unportable app:1 2 get mates 4.2 / unportable app:1 "
        "2 get near-get 4.2 / unportable app:1 4 get far-get 4.2 / unportable app:1 4 get mates "
        "4.2 / unportable app:1 4 get near-get 4.2 / unportable app:2 2 get far-get 4.2 / "
        "unportable app:2 2 get mates 4.2 / unportable app:2 2 get near-get 4.2 / unportable "
        "app:2 4 get far-get 4.2 / unportable app:2 4 get mates 4.2 / unportable app:2 4 get "
        "near-get 4.2 / portable 5.0,7.0",
    ),
    Told(
        "commits of two phases that are waited for",
        "rehearsal 1 / node n0 / node n1 / job app / rank n0 / put global a 1 / commit / fence "
        "all / put global b 2 / commit / fence all / put global c 3 / commit / fence all / rank "
        "n1 / fence all / get app:0 a / fence all / get app:0 b / fence all / get app:0 c / rank "
        "n1 / fence all / get app:0 a / fence all / get app:0 b / fence all / get app:0 c",
        "portable 4.2,5.0,7.0",
        "portable 4.2,5.0,7.0",
    ),
]
