"""Writes wrappers for the functions of a header that the recorder doesn't note, as C that counts
each call and passes it on. So no call of the header that can order processes goes unnoticed.

Usage: cc -E HEADER.. | python3 record/others.py MPI|PMIx NOTED > OTHERS.c

The header comes preprocessed on standard input. NOTED is the table of the functions that are noted:
a function is left alone if its name is there outside of a comment, or if it waits for nothing that
another process does, as the names in LOCAL say.
"""
import re
import sys
from collections.abc import Iterator

from c_header import Function, HeaderError, Parameter, read_functions
from frame import LARGE, LIBRARIES, Library, Shape, write_file, write_wrapper

LOCAL = {
    "MPI": (
        # Objects of the process alone, and what is asked of them.
        r"(Type|Group|Info|Op|Errhandler|Error|Status|Message|Keyval|Attr|Add_error)_\w+",
        r"\w+_(c2f|f2c|toint|fromint)",
        r"T_\w+",
        r"(Comm|Win|File)_(get_\w+|call_errhandler|\w+_errhandler|\w+_keyval|\w+_attr|set_name)",
        r"(Cart|Graph|Dist_graph|Dims|Cartdim|Graphdims)_?\w*",
        r"Comm_(group|rank|size|compare|remote_group|remote_size|test_inter)",
        r"Win_(attach|detach|sync)",
        r"Topo_test",
        r"(Pack|Unpack)\w*",
        r"Get_(address|count|elements|elements_x|library_version|processor_name|version)",
        r"(Alloc|Free)_mem",
        r"Reduce_local",
        r"Initialized|Finalized|Is_thread_main|Query_thread",
        r"Pcontrol|Wtick|Wtime",
        r"Register_datarep|Buffer_attach|(Comm|Session)_attach_buffer",
        r"Test_cancelled|Grequest_\w+",
        r"Get_hw_resource_info|Aint_(add|diff)|Remove_error_\w+|Abi_\w+",
        r"Session_(get_\w+|\w+_errhandler|set_info)",
        # It fetches a message that MPI_Mprobe received.
        r"Mrecv",
        # The calls of PMIx that they make are noted.
        r"(Open|Close)_port|(Publish|Unpublish|Lookup)_name",
    ),
    "PMIx": (
        r"\w+_string",
        # Objects of the process alone, and what is asked of them.
        r"(Value|Info|Data|Topology|Cpuset|Argv|Proc|Byte_object|Pdata|App|Regattr|Coord)_\w+",
        r"(Geometry|Device|Endpoint|Envar|(Disk|Net|Node)_stats|Multicluster_nspace)_\w+",
        r"(Node_pid|Resource_unit)_\w+|Query_(\w+_)?(construct|destruct|create|free|release)",
        r"(Load|Check|Xfer)_(key|nspace|procid|rank|reserved_key)(_strict)?|Regex2_\w+",
        r"(Nspace|Procid)_invalid|Rank_valid|Heartbeat|Progress_thread_\w+",
        r"Fabric_construct|Setenv|Error_code|generate_\w+",
        r"Get_(version|attribute_\w+|cpuset|relative_locality)",
        r"Initialized|Progress|Load_topology",
        r"Compute_distances\w*",
        r"Deregister_event_handler",
        r"tool_\w+|server_\w+|IOF_\w+",
    ),
}
# Functions that wait for others, though their names begin as those above do.
NOT_LOCAL = ("MPI_File_get_position_shared", "MPI_File_get_size")

NOTES = {
    "MPI": """\
static struct counter others = {.what = OTHERS, .function = "$function"};
struct call call = enter_call("$function", caller);
if (call.is_noted)
    wire_up_count(&others);
""",
    "PMIx": """\
static struct counter others = {.what = OTHERS, .function = "$function"};
if (is_noted(caller))
    wire_up_count(&others);
""",
}
# A library of MPI has handlers of its own, and says which files go with the job.
OF_PROGRAM = ("PMIx_Register_event_handler", "PMIx_Job_control", "PMIx_Job_control_nb")
NOTES_OF_PROGRAM = NOTES["PMIx"].replace("is_noted", "is_of_program")
# What is told may depend on how far others are: the program's own count by a name of their own.
QUERIES = ("PMIx_Query_info", "PMIx_Query_info_nb")
NOTES_OF_QUERY = """\
static struct counter others = {.what = OTHERS, .function = "$function"};
static struct counter own = {.what = OTHERS, .function = "${function}_of_program"};
if (is_noted(caller))
    wire_up_count(is_of_program(caller) ? &own : &others);
"""
# What the function makes may have the handle of something that is gone.
FORGETTING = {
    "MPI_Request": "forget_request(*{})",
    "MPI_Comm": "forget_communicator((uintptr_t)*{})",
}
KEEPING = "keep_counted(*{})"


def find_names(text: str, prefix: str) -> set[str]:
    """The names of functions that a text has outside of comments."""
    plain = re.sub(r"/\*.*?\*/|^\s*#.*?$", "", text, flags=re.DOTALL | re.MULTILINE)
    return set(re.findall(rf"\b{prefix}_\w+", plain))


def is_local(name: str, prefix: str) -> bool:
    """Whether a function waits for nothing that another process does."""
    short = name.removeprefix(f"{prefix}_").removesuffix(LARGE)
    return name not in NOT_LOCAL and any(re.fullmatch(text, short) for text in LOCAL[prefix])


def write_forgetting(name: str, parameter: Parameter) -> str:
    """The C that forgets what had the handle that a call of this name puts where a parameter
    points, if it puts one there; a persistent request is kept."""
    found = re.fullmatch(r"\s*(\w+) ?\* ?", parameter.start)
    if not found or found[1] not in FORGETTING or parameter.end:
        return ""
    is_kept = found[1] == "MPI_Request" and name.removesuffix(LARGE).endswith("_init")
    call = (KEEPING if is_kept else FORGETTING[found[1]]).format(parameter.name)
    return f"if (call.is_noted && result == MPI_SUCCESS)\n    {call};\n"


def write_counted(library: Library, function: Function) -> str:
    """The wrapper of a function that is only counted."""
    parameters = function.parameters()
    note = NOTES_OF_PROGRAM if function.name in OF_PROGRAM else NOTES[library.prefix]
    note = NOTES_OF_QUERY if function.name in QUERIES else note
    shape = Shape(
        note, "".join(write_forgetting(function.name, parameter) for parameter in parameters)
    )
    return write_wrapper(library, function, parameters, shape)


def write_others(library: Library, noted: set[str], header: str) -> Iterator[str]:
    """The wrappers of the functions that are counted. Says which can't be passed on."""
    for name, function in read_functions(header, library.prefix).items():
        if {name, name.removesuffix(LARGE)} & noted or is_local(name, library.prefix):
            continue
        if function.answer != library.answer or function.is_variadic:
            text = f"others.py: {name} can't be passed on: say in LOCAL why it need not be"
            print(text, file=sys.stderr)
        else:
            yield write_counted(library, function)


def main(words: list[str]) -> int:
    """Runs the program; answers its exit status."""
    if len(words) != 3 or words[1] not in LIBRARIES:
        print(__doc__, file=sys.stderr)
        return 1
    library = LIBRARIES[words[1]]
    try:
        with open(words[2], encoding="utf-8") as table:
            noted = find_names(table.read(), library.prefix)
        wrappers = list(write_others(library, noted, sys.stdin.read()))
    except OSError as error:
        print(f"others.py: {words[2]}: {error.strerror}", file=sys.stderr)
        return 1
    except HeaderError as error:
        print(f"others.py: {error}", file=sys.stderr)
        return 1
    sys.stdout.write(write_file(library, "others.py", wrappers))
    return 0


if __name__ == "__main__":
    sys.exit(main(sys.argv))
