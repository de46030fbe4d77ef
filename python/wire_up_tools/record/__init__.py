"""The recorder: runs a program with a library in each of its processes, and writes what they
called as a plan.

The way of the data, each step a function from a value to a value:

    recordings.py, forms.py       files -> recordings, with the calls of calls.py
    processes.py                  recordings -> jobs, nodes and processes in the plan's order
    names.py                      their calls -> words for keys and names
    pmix_calls.py, pmix_fences.py calls of PMIx -> lines of the plan
    mpi_order.py                  calls of MPI -> the lines by which MPI orders processes
    draft.py                      lines -> a draft of the plan, which can be run
    shortening.py                 a draft -> a draft without what can't change a finding
    writing.py                    a draft -> the text of the plan, and how its calls ended

partings.py and merging.py make one plan of several runs: of what they share, and where they part.

planning.py calls them in this order, from recordings to the draft. overlaps.py notes the calls that
get more order thereby than they had. What MPI's order is stands in mpi_order.py. It has messages
collected by inboxes.py, parted by streams.py and grouping.py and matched by groups.py, collectives
matched by collectives.py, and messages that could have come otherwise ordered by
wildcard_receives.py; horizon.py says which of them can matter. The calls of a process that send,
receive or probe are columns (messages.py), since there can be millions.

command_line.py is what users call, and tasks.py what is done then: running.py runs a command,
places.py finds lines in the source, and verdicts.py asks the checker.
"""
