"""Plans, and what is written of them as JSON."""
from . import Formed

FORMED = [
    Formed(
        "a rank without calls",
        b"""\
rehearsal 1
node n0
node n1
job app
rank n0
""",
        b'{"ranks":[{"calls":[],"proc":"app:0"}],"waiting":0}\n',
        b'{"findings":[]}\n',
    ),
    Formed(
        "a get that waits for a commit",
        b"""\
rehearsal 1
node n0
node n1
job app
rank n0
put global k v
commit
rank n1
get app:0 k
""",
        (
            b'{"ranks":[{"calls":[{"reply":"PMIX_SUCCESS","verb":"put"},{"reply":"PMIX_SUCCESS",'
            b'"verb":"commit"}],"proc":"app:0"},{"calls":[{"reply":"PMIX_SUCCESS","value":"v",'
            b'"verb":"get"}],"proc":"app:1"}],"waiting":0}\n'
        ),
        b'{"findings":[]}\n',
    ),
    Formed(
        "a race",
        b"""\
rehearsal 1
node n0
job app
rank n0
put global k v
commit
rank n0
get-now app:0 k
""",
        (
            b'{"ranks":[{"calls":[{"reply":"PMIX_SUCCESS","verb":"put"},{"reply":"PMIX_SUCCESS",'
            b'"verb":"commit"}],"proc":"app:0"},{"calls":[{"reply":"PMIX_SUCCESS","value":"v",'
            b'"verb":"get-now"}],"proc":"app:1"}],"waiting":0}\n'
        ),
        b'{"findings":["race app:0 2 app:1 1 key app:0 k"]}\n',
        b"app:0\napp:0\napp:1\n",
    ),
    Formed(
        "quotes and backslashes, and a number",
        b"""\
rehearsal 1
node n0
job "a\\
rank n0
put global "k\\ v
put global "k\\ \\v/"
get "a\\:0 "k\\
get "a\\:0 PMIX_RANK
get "a\\:0 none
commit
""",
        (
            b'{"ranks":[{"calls":[{"reply":"PMIX_SUCCESS","verb":"put"},{"reply":"PMIX_SUCCESS",'
            b'"verb":"put"},{"reply":"PMIX_SUCCESS","value":"\\\\v/\\"","verb":"get"},{"reply":'
            b'"PMIX_SUCCESS","value":"0","verb":"get"},{"reply":"waiting","verb":"get"},{"reply":'
            b'"unreached","verb":"commit"}],"proc":"\\"a\\\\:0"}],"waiting":1}\n'
        ),
        b'{"findings":["rewrite \\"a\\\\:0 1 2 \\"k\\\\"]}\n',
        b'"a\\:0\n"a\\:0\n"a\\:0\n"a\\:0\n',
        (
            b'{"order":["\\"a\\\\:0","\\"a\\\\:0","\\"a\\\\:0","\\"a\\\\:0"],"ranks":[{"calls":[{'
            b'"reply":"PMIX_SUCCESS","verb":"put"},{"reply":"PMIX_SUCCESS","verb":"put"},{"reply":'
            b'"PMIX_SUCCESS","value":"\\\\v/\\"","verb":"get"},{"reply":"PMIX_SUCCESS","value":'
            b'"0","verb":"get"},{"reply":"waiting","verb":"get"},{"reply":"unreached","verb":'
            b'"commit"}],"proc":"\\"a\\\\:0"}],"unsettled":true,"waiting":1}\n'
        ),
    ),
]
