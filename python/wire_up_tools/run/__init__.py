"""Runs plans on a real PMIx library.

`command_line` reads what is asked for, and `tasks` does it. `expected` asks the checker what the
rules say, and `reports` compares. `live` runs a plan: `launchers` has the command lines by which
the ranks are started, `fake_nodes` the nodes that are none, `channels` the sockets to the ranks,
`ranks` what they are told and say, and `turns` an order. `ending` ends all that was started, and
`interrupts` keeps signals from cutting that short. `answers` writes what came of it.

`suite` runs the plans of the folder `plans`, which are about the rules of `profile`, and
`suite_answers` and `tables` write what came of them. `libraries` has what is known of libraries.

The process that makes the calls of a rank is in C: the folder `run` of the repository.
"""
