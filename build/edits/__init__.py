"""The edits that the prover must refuse, those of many functions in one check.

An edit is a wrong body: `crates/NAME/edits/MISTAKE.edit` has lines 'file: src/FILE.rt', 'old: TEXT'
and 'new: TEXT', where TEXT is one line. The proof of a function depends only on the contracts of
the functions that it calls, so wrong bodies of several functions don't disturb each other. They
make up a batch, and one check of these functions (`rattle check --only`) gives a verdict for each.

The functions of the crate that have no edit in the batch have no bodies in that check: each only
calls `unreachable!()`, with a hole in its proof where it must be shown that this is never reached.
Their own proofs are not repeated, since the crate was proved before. One of them keeps its body and
has to be proved, where there is any, and if possible one that calls a function without a body: so a
batch in which right bodies were refused too shows nothing.

Where a function has several edits, the first stands in its place, and each other one in a copy of
the function and of its proof files, under a name of its own. One more copy, without an edit, has to
be proved: so what is refused in a copy isn't refused for its name. One such copy is made of each
function whose proof other proof files name, since these keep the old name, or, where there is none,
of the shortest with several edits. Where no copy can be made, the second edit goes into a second
batch. That begins with nothing but what the batches before it, of the same crate and in this run,
have proved. An edit is refused if its own function has no proof for a reason of its own, and not
only because it calls another that isn't proved.

A batch shows nothing if it isn't checked to its end, or if a function without an edit, or a file of
lemmas, has no proof for a reason of its own. Then its halves are tried, and so on.

What a batch doesn't show refused is tried alone: first its function by itself, with all bodies that
it calls, and where that doesn't show it either, the whole crate, as `rt must-fail` tries an edit.
So is an edit of more than one body, or of none.

`sources` finds the functions of a source file, `reading` reads edits, `emptying` and `copying` make
the texts of a batch, which `batches` puts together; `checks` has the prover check it, `verdicts`
reads what the prover said, and `trying` goes through all edits.
"""
