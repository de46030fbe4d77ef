"""One pattern from runs of a program with several numbers of ranks, and the answer on it.

A *claim* says what all ranks of a role know of all others of a role where they come to an item of
their script: that these have passed some item of theirs. In a pattern claims stand in place of the
order of MPI. A plan that is an instance by its calls, and of which the claims are true, is at least
as ordered as that instance: so where nothing races in the pattern, nothing does in the plan.

- `plans`: a plan of one job; `leaning` leaves out what can't change a finding.
- `walking`: one run of a plan; `knowing` and `growing`: what ranks know in it, and what that takes.
- `scripts`: one script of each role for the plans of all sizes; `claims`; `writing`: the text.
- `inferring` puts these together; `judging` asks the checker; `answering` has the words.
- `asking` reads the command line, and `doing` does what it asks for.
"""
