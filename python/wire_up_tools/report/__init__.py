"""The reporter: what `wire_up` finds in a plan, for people to look at.

- `command_line` begins. `contents` gathers all that a report says, whatever its form.
- `asking` asks the checker; `findings`, `chains`, `runs` and `replies` read what it answers. Of a
  large plan `plan_parts` makes parts, which are asked one by one.
- `language` has what calls are called. `messages` finds the message that would order a race,
  `barriers` says where a barrier would, and `readers` who gets a key that is put again.
- `causes` puts the groups of the checker that have one cause into one mistake.
- `placements` tells what is found on other placements of the ranks, `patterns` what is found for
  every number of ranks, and `library_page` what a library is known to answer otherwise.
- `uses` says who puts which key, `orders` what waits for what, `waits` why ranks wait for ever,
  `standstill` which of them in a circle, and `places` where in the program calls come from.
- `race_diagram`, `wire_up_diagram` and `node_diagram` choose what stands in a `diagram`.
- `layout` finds where everything of a diagram stands, and `race_line` the line of a race. `drawing`
  draws them as SVG, with `hovering` for what is pointed at, and `text_drawing` as text; `ring`
  draws ranks that wait in a circle.
- `explaining` and `verdict` have the words, with `phrases` for numbers and names; `partial` says
  why a verdict holds only in part.
- `html_page` writes a page, with `plan_page`, `markup` and `page_style`, and `pattern_page` that of
  a pattern; `terminal_text` writes text for a terminal, and `sarif` SARIF.
"""
