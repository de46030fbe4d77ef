"""Writes the wrapper of one function, in C: what is done before the library's own function is
called, the call, and what is done after it. The program's errno is what the library left there."""
from collections.abc import Mapping
from dataclasses import dataclass, field
from string import Template
from textwrap import indent

from c_header import Function, Parameter

# What stands before a function: `$caller` comes before its parameters, if it is told who calls.
WATCH = """\
$head
{
    static void *known;
$caller    __typeof__(&$own) real = find_function(&known, "$own", &$wrapper, caller);
    if (!real)
        return $failure;
    int saved = errno;
$before    errno = saved;
    $answer result = real($handed);
    saved = errno;
$after    errno = saved;
    return result;
}
"""
CALLER = "    void *caller = __builtin_return_address(0);\n"
# A library whose functions have one name: the wrapper has that.
ONE_NAME = Template(WATCH.replace("$head", "EXPORTED\n$answer $function($parameters)"))
# MPI's functions have two names, so that a tool can take the plain ones and call the others. What
# the program calls by the plain name goes to such a tool, if there is one, and is noted where that
# calls the other name.
TWO_NAMES = Template(
    WATCH.replace("$head", "static $answer watch_$function($with_caller)") + """
EXPORTED
$answer $own($parameters)
{
    return watch_$function($after_caller);
}

EXPORTED
$answer $function($parameters)
{
    static void *known;
    void *caller = __builtin_return_address(0);
    __typeof__(&$function) tool = find_tool(&known, "$own", &watch_$function, caller);
    if (!tool)
        return watch_$function($after_known_caller);
    unsigned long before = calls_made;
    $answer result = tool($arguments);
    note_passed("$function", before);
    return result;
}
""")


@dataclass(frozen=True)
class Library:
    """A library whose functions have wrappers: how their names begin, what comes before that in the
    name of the library's own, the type that they answer, what they answer where the library hasn't
    the function, what their wrappers include, and how these are written."""

    prefix: str
    own: str
    answer: str
    failure: str
    include: str
    frame: Template


# How the names of functions of MPI end that take counts of more bits. All else is the same.
LARGE = "_c"
LIBRARIES = {
    "MPI": Library("MPI", "P", "int", "MPI_ERR_OTHER", "mpi/wrapper.h", TWO_NAMES),
    "PMIx": Library(
        "PMIx", "", "pmix_status_t", "PMIX_ERR_NOT_SUPPORTED", "pmix/wrapper.h", ONE_NAME
    ),
}


@dataclass(frozen=True)
class Shape:
    """What a wrapper does besides, in C: before the call and after it, and what the library gets in
    place of arguments. In it, `$function` stands for the name of the function, and `$kind` for that
    name without its prefix, in small letters."""

    before: str = ""
    after: str = ""
    handed: Mapping[str, str] = field(default_factory=dict)


def write_wrapper(library: Library, function: Function, parameters: tuple[Parameter, ...],
                  shape: Shape) -> str:
    """The text of a wrapper whose parameters have these names."""
    kind = function.name.removeprefix(f"{library.prefix}_").removesuffix(LARGE).lower()

    def body(text: str) -> str:
        return indent(Template(text).substitute(function=function.name, kind=kind), "    ")

    has_two = library.frame is TWO_NAMES
    declared = [parameter.declaration for parameter in parameters]
    names = [parameter.name for parameter in parameters]
    return library.frame.substitute(
        answer=library.answer,
        function=function.name,
        own=library.own + function.name,
        failure=library.failure,
        parameters=", ".join(declared) or "void",
        with_caller=", ".join(["void *caller", *declared]),
        arguments=", ".join(names),
        after_caller=", ".join(["__builtin_return_address(0)", *names]),
        after_known_caller=", ".join(["caller", *names]),
        wrapper=f"watch_{function.name}" if has_two else function.name,
        caller="" if has_two else CALLER,
        handed=", ".join(shape.handed.get(name, name) for name in names),
        before=body(shape.before),
        after=body(shape.after),
    )


def write_file(library: Library, writer: str, wrappers: list[str]) -> str:
    """The text of a C file that a program makes of wrappers."""
    head = f'/* Made by {writer}. */\n#include "{library.include}"\n\n'
    return head + "\n".join(wrappers)
