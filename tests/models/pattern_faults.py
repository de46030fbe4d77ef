"""Patterns that are refused, each with its fault and line, and the largest that aren't."""
from collections.abc import Iterator
from typing import NamedTuple

HEAD = "pattern 1 / job app / "
GROUP = HEAD + "many w / "
TWO = HEAD + "one root / many w / "


class Refusal(NamedTuple):
    """A pattern, its lines with ` / ` between them, and the name and the line of its fault."""

    lines: str
    fault: str
    line: int

    @property
    def text(self) -> bytes:
        return text_of(self.lines)


def text_of(lines: str) -> bytes:
    return "".join(f"{part}\n" for part in lines.split(" / ")).encode()


def first_lines() -> Iterator[Refusal]:
    """The header, `keep`, and what stands in a wrong place."""
    yield Refusal("", "BadHeader", 2)
    yield Refusal("# only", "BadHeader", 2)
    for head in ("rehearsal 2", "pattern", "pattern 2", "pattern 01", "pattern 1 1", "job app"):
        yield Refusal(head, "BadHeader", 1)
    yield Refusal(f"#  / {HEAD}pattern 1", "BadLine", 4)
    yield Refusal("pattern 1 / keep it", "BadLine", 2)
    yield Refusal("pattern 1 / keep / keep", "BadLine", 3)
    yield Refusal("pattern 1 / job app / keep", "BadLine", 3)
    yield Refusal("pattern 1 / node n0", "BadLine", 2)
    yield Refusal("pattern 1 / one root", "BadLine", 2)
    yield Refusal("pattern 1 / job app / commit", "BadLine", 3)
    yield Refusal("pattern 1 / job app / one root / job srv / commit", "BadLine", 5)
    yield Refusal("pattern 1 / job app / many w / job srv / for w", "BadLine", 5)
    yield Refusal("pattern 1 / job app / rank n0", "BadLine", 3)


def declared() -> Iterator[Refusal]:
    """Jobs and roles."""
    for word in ("", "a b", "a:", "a,b", "a#", "*", "a[", "]"):
        yield Refusal(f"pattern 1 / job {word}", "BadLine", 2)
        yield Refusal(f"{HEAD}one {word}", "BadLine", 3)
    for word in ("self", "each", "all", "some", "cyclic", "w min", "w min 0", "w min 10"):
        yield Refusal(f"{HEAD}many {word}", "BadLine", 3)
    for word in ("w min 01", "w min -1", "w min 1 1", "w max 1", "min 1"):
        yield Refusal(f"{HEAD}many {word}", "BadLine", 3)
    yield Refusal(f"{HEAD}one root min 1", "BadLine", 3)
    yield Refusal(f"{HEAD}one self", "BadLine", 3)
    yield Refusal("pattern 1 / job app / job app", "Twice", 3)
    yield Refusal(f"{HEAD}one w / many w", "Twice", 4)
    yield Refusal(f"{HEAD}one w / job srv / one w", "Twice", 5)


def loops() -> Iterator[Refusal]:
    """Loops, and where `each` may stand."""
    for words in ("", "w w", "cyclic", "some", "some cyclic", "some w cyclic", "w some", "self"):
        yield Refusal(f"{GROUP}for {words} / end", "BadLine", 4)
    for words in ("w,", ",w", "root,,w", "root,self", "root,app:*", "some root,each", "root, w"):
        yield Refusal(f"{TWO}for {words} / end", "BadLine", 5)
    yield Refusal(f"{TWO}for root,w cyclic / end", "BadLine", 5)
    yield Refusal(f"{TWO}for root,w,root / end", "Twice", 5)
    yield Refusal(f"{TWO}for some w,w / end", "Twice", 5)
    yield Refusal(f"{TWO}for w,a,b,c,d,e,f,g,w / end", "Twice", 5)
    yield Refusal(f"{TWO}for w,a,b,c,d,e,f,g,h,w / end", "TooMany", 5)
    for line in ("for w", "job srv", "one root", "many v", "keep"):
        yield Refusal(f"{GROUP}for w / {line} / end", "BadLine", 5)
    yield Refusal(f"{GROUP}end", "BadLine", 4)
    yield Refusal(f"{GROUP}for w / end / end", "BadLine", 6)
    yield Refusal(f"{GROUP}for w / end w", "BadLine", 5)
    yield Refusal(f"{GROUP}for w / lookup x[each]", "BadLine", 6)
    yield Refusal(f"{GROUP}for v / fence all / # more", "BadLine", 5)
    yield Refusal(f"{GROUP}get each k", "BadLine", 4)
    yield Refusal(f"{GROUP}lookup x[each]", "BadLine", 4)
    yield Refusal(f"{GROUP}fence self,each", "BadLine", 4)
    yield Refusal(f"{GROUP}for w / unpublish * / end", "BadLine", 5)
    for line in ("lookup x", "get self k", "put global each v", "fence self", "publish k each"):
        yield Refusal(f"{GROUP}for w / {line} / end", "BadLine", 5)


def words() -> Iterator[Refusal]:
    """The words of call lines."""
    for word in ("*", "*[self]", "k[", "k[]", "k]", "[self]", "k[self", "k[self]x", "k[self,]"):
        yield Refusal(f"{GROUP}lookup {word}", "BadLine", 4)
    for word in ("k[,self]", "k[[self]]", "k[self][self]", "k[all]", "k[app:0]", "k[app:*]"):
        yield Refusal(f"{GROUP}lookup {word}", "BadLine", 4)
    for word in ("all", "app:0", "app:*", "self,self", "some", "cyclic", "a["):
        yield Refusal(f"{GROUP}get {word} k", "BadLine", 4)
    for word in ("", "all,self", "self,all", "self,,w", "self,", "app:0", "self,:*", "self,a:**"):
        yield Refusal(f"{GROUP}fence {word}", "BadLine", 4)
    for word in ("self some", "all all", "all collect collect", "cyclic", "w[self]"):
        yield Refusal(f"{GROUP}fence {word}", "BadLine", 4)
    for line in ("put k v", "put all k v", "put global k", "commit k", "get k", "get-now self k v"):
        yield Refusal(f"{GROUP}{line}", "BadLine", 4)
    for line in ("publish k", "lookup k v", "unpublish", "unpublish * *", "lookup-wait", "Commit"):
        yield Refusal(f"{GROUP}{line}", "BadLine", 4)


def unknown() -> Iterator[Refusal]:
    """Names that aren't declared, and groups in place of processes."""
    yield Refusal(f"{GROUP}get root k", "UnknownName", 4)
    yield Refusal(f"{GROUP}lookup x[root]", "UnknownName", 4)
    yield Refusal(f"{GROUP}fence self,root", "UnknownName", 4)
    yield Refusal(f"{GROUP}fence self,srv:*", "UnknownName", 4)
    yield Refusal(f"{GROUP}for v / end", "UnknownName", 4)
    yield Refusal(f"{TWO}for root,v / end", "UnknownName", 5)
    yield Refusal(f"{TWO}for root,v / get no k[each] / end", "UnknownName", 5)
    yield Refusal(f"{GROUP}for v / lookup x[each,root] / end", "UnknownName", 4)
    yield Refusal(f"{TWO}get w k[root]", "BadLine", 5)
    yield Refusal(f"{TWO}get root k[w]", "BadLine", 5)
    yield Refusal(f"{TWO}get w k[no]", "UnknownName", 5)
    yield Refusal(f"{TWO}get no k / lookup x y", "BadLine", 6)
    yield Refusal(f"{TWO}fence root / get no k", "NotMember", 5)
    yield Refusal(f"{TWO}fence root,no", "UnknownName", 5)
    yield Refusal(f"{TWO}job srv / many v / fence app:*", "NotMember", 7)
    yield Refusal(f"{TWO}job srv / many v / fence w,root", "NotMember", 7)
    yield Refusal(f"{TWO}for w / fence root,each / end", "NotMember", 6)


def restricted() -> Iterator[Refusal]:
    """Lines that loops may not have."""
    for items in ("self,each,w", "each,all", "self,each,app:*", "w,each"):
        yield Refusal(f"{GROUP}for w / fence {items} / end", "BadLine", 5)
    yield Refusal(f"{TWO}for w / fence w,each / end", "BadLine", 6)
    yield Refusal(f"{TWO}for root,w / fence w,each / end", "BadLine", 6)
    yield Refusal(f"{TWO}for root / fence self,each,app:* / end", "BadLine", 6)
    yield Refusal(f"{TWO}job srv / one v / for w / fence self,each,app:* / end", "BadLine", 8)
    for line in ("publish x[each] v", "unpublish x[each]", "fence self,each"):
        yield Refusal(f"{GROUP}for some w / {line} / end", "BadLine", 5)
    yield Refusal(f"{GROUP}put global k v / for w / commit / end", "BadLine", 6)
    put = "put global k[each] v"
    yield Refusal(f"{GROUP}for w / {put} / end / for w / commit / end", "BadLine", 8)
    yield Refusal(f"{GROUP}for w / commit / {put} / end", "BadLine", 5)
    yield Refusal(f"{GROUP}for w / {put} / commit / put local m[each] v / end", "BadLine", 6)
    yield Refusal(f"{GROUP}for w / commit / {put} / end / get no k", "UnknownName", 8)


def limits() -> Iterator[Refusal]:
    """Words that are too long, and too much of something."""
    name, long, value = "n" * 64, "k" * 64, "v" * 256
    yield Refusal(f"pattern 1 / job {name}", "TooLong", 2)
    yield Refusal(f"{HEAD}one {name}", "TooLong", 3)
    yield Refusal(f"{GROUP}for {name} / end", "TooLong", 4)
    yield Refusal(f"{GROUP}for w,{name} / end", "TooLong", 4)
    yield Refusal(f"{GROUP}for {','.join(f'w{number}' for number in range(9))} / end", "TooMany", 4)
    yield Refusal(f"{GROUP}for {','.join(['w'] * 9)} / end", "Twice", 4)
    for line in (f"get {name} k", f"lookup {long}", f"lookup {long}[self]", f"lookup k[{name}]"):
        yield Refusal(f"{GROUP}{line}", "TooLong", 4)
    for line in (f"publish k {value}", f"put local k {value}", f"fence self,{name}"):
        yield Refusal(f"{GROUP}{line}", "TooLong", 4)
    yield Refusal(f"{GROUP}fence self,{name}:*", "TooLong", 4)
    yield Refusal(f"{GROUP}lookup {'k' * 57}[self]", "TooLong", 4)
    yield Refusal(f"{GROUP}lookup {'k' * 57}[self] / get no k", "UnknownName", 5)
    yield Refusal(f"{GROUP}for w / lookup {'k' * 45}[each,self,each] / end", "TooLong", 5)
    yield Refusal(f"{HEAD}many w min 8 / many v / lookup {'k' * 56}[self]", "TooLong", 5)
    ends = f"{TWO}one last / many v min 6 / for v / lookup"
    yield Refusal(f"{ends} {'k' * 50}[self,each] / end", "TooLong", 8)
    yield Refusal("pattern 1" + "".join(f" / job j{number}" for number in range(17)), "TooMany", 18)
    yield Refusal(HEAD + " / ".join(f"many w{number}" for number in range(7)), "TooMany", 9)
    yield Refusal(HEAD + " / ".join(f"one r{number}" for number in range(65)), "TooMany", 67)
    singles = " / ".join(f"one r{number}" for number in range(56))
    yield Refusal(f"{HEAD}{singles} / many w min 9", "TooMany", 59)
    turn = "for some w / put local k[each] v / end"
    yield Refusal(f"{GROUP}{turn} / {turn} / {turn} / {turn}", "TooMany", 10)
    reads = "for some w / get-now each k / lookup x[each] / end"
    yield Refusal(f"{HEAD}many w min 6 / {reads} / {turn}", "TooMany", 8)
    calls = " / ".join(["commit"] * 32_769)
    yield Refusal(f"{HEAD}one root / {calls}", "TooMany", 32_772)
    yield from limits_of_three()


def limits_of_three() -> Iterator[Refusal]:
    """Patterns that pass a limit with three ranks alone."""
    thirds = [" / ".join(["commit"] * count) for count in (10_921, 10_922, 10_923)]
    yield Refusal(f"{GROUP}{thirds[2]}", "TooMany", 10_926)
    yield Refusal(f"{GROUP}publish x v / {thirds[1]}", "TooMany", 10_926)
    ring = "for w cyclic / fence self,each / end"
    yield Refusal(f"{GROUP}{thirds[0]} / {ring}", "TooMany", 10_926)
    job = f"pattern 1 / job {'j' * 63} / many w"
    yield Refusal(f"{job} / publish x[self] v / publish y v", "TooLong", 4)
    yield Refusal(f"{GROUP}put global {'b' * 60}[self] v / publish x v", "TooLong", 4)
    yield Refusal(f"{GROUP}publish {'b' * 60}[self] v / publish x v", "TooLong", 4)


def refusals() -> Iterator[Refusal]:
    """All of them."""
    for of in (first_lines, declared, loops, words, unknown, restricted, limits):
        yield from of()


def taken() -> Iterator[str]:
    """The lines of patterns that are read, some just within a limit."""
    yield "pattern 1"
    yield "# note /   / pattern 1 / keep"
    yield "pattern 1 / job self / job all / job app"
    yield f"{HEAD}one one / one many / one min / one job / one end / one app"
    yield f"{GROUP}for w / end / for some w / end / for w cyclic / commit / end"
    yield f"{TWO}for root / get each k / end / for root cyclic / fence self,each,root / end"
    yield f"{TWO}for w,root / get each k / end / for some root,w / put local k[each] v / end"
    singles = [f"r{number}" for number in range(8)]
    yield HEAD + " / ".join(f"one {text}" for text in singles) + f" / for {','.join(singles)} / end"
    yield f"{GROUP}lookup **[self] / lookup #k / lookup : / lookup , / publish each [v]"
    yield f"{GROUP}fence all / fence w / fence self / fence app:* / fence w,self,w,app:*"
    yield f"{TWO}for w / fence self,each,root / fence root,each,self / end"
    yield f"{TWO}job srv / many v / for w / fence v,each / fence srv:*,each / end"
    yield f"{TWO}put local k v / commit / for w / commit / put local m[each] v / commit / end"
    yield f"{GROUP}lookup {'k' * 56}[self]"
    yield f"{GROUP}for w / lookup {'k' * 44}[each,self,each] / end"
    yield f"{HEAD}many w min 7 / many v / lookup {'k' * 56}[self]"
    yield f"{TWO}one last / many v min 6 / for v / lookup {'k' * 49}[self,each] / end"
    yield f"{HEAD}one {'n' * 63} / get {'n' * 63} {'k' * 63} / publish k {'v' * 255}"
    yield "pattern 1" + "".join(f" / job j{number}" for number in range(16))
    yield HEAD + " / ".join(f"one r{number}" for number in range(64))
    turn = "for some w / put local k[each] v / end"
    yield f"{GROUP}{turn} / {turn} / for some w / lookup x[each] / end"
    # The fewest ranks with a finding, which aren't the first in the order of sizes.
    yield f"{HEAD}many a / put global k v / put global k w / many b / publish x v"
