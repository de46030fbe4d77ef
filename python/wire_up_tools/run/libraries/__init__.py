"""What real libraries are known to do.

`rules` names the ways in which one answers otherwise than the profile, and `traits` says which of
them each library has, and how. `predicting` takes the steps of a plan by them: `world` is what it
knows, `gets`, `fences` and `name_calls` answer. `judging` says what that means for a verdict.
`tables` reads what was measured, which stands in the folder `tables`. None of it is proved.
"""
