"""What the wrappers of PMIx' functions do, by the words of pmix.table, in C. Arguments have the
names that the table gives them. What they call is in record/pmix."""
from frame import Shape


def write_begin(form: str, note: str) -> str:
    """C that notes that a call of a form begins."""
    return f"""\
unsigned long number = 0;
if (is_noted(caller)) {{
    struct call call = {{.form = {form}}};
    call.place = find_origin(caller, __builtin_frame_address(0));
    number = {note};
}}
"""


def shape_blocking(note: str, end: str = "note_end(number, result);\n") -> Shape:
    """A call that blocks: it is noted before and after."""
    return Shape(write_begin("BLOCKS", note), end)


def shape_calling_back(note: str, ends: str) -> Shape:
    """A call that doesn't block: the recorder's callback for calls that end so stands in place of
    the program's."""
    keep = f"struct pending *pending = await_{ends}(number, then, data);\n"
    return Shape(write_begin("find_form(caller)", note) + keep, """\
note_begun(number, result, pending);
""", {"then": f"pending ? end_{ends} : then", "data": "pending ? pending : data"})


def shape_init(is_recorded: str) -> Shape:
    """The beginning of a session, of a process that is recorded on a condition in C."""
    return Shape("""\
pmix_proc_t own;
memset(&own, 0, sizeof own);
pmix_proc_t *me = process ? process : &own;
bool is_inner = find_owner(caller) == OF_PMIX;
""", f"""\
if (result == PMIX_SUCCESS && {is_recorded})
    enter_session(me, caller);
""", {"process": "me"})


# What the caller's own store has isn't only what comes before by the rules.
OF_OWN_STORE = """\
static struct counter own_store = {.what = OTHERS, .function = "PMIx_Get_of_own_store"};
if (is_of_program(caller) && is_of_own_store(process, key, info, infos))
    wire_up_count(&own_store);
"""


def shape_get(shape: Shape) -> Shape:
    """A get, which is counted too if it looks into the caller's own store alone."""
    return Shape(OF_OWN_STORE + shape.before, shape.after, shape.handed)


SHAPES = {
    "init": shape_init("!is_inner"),
    "init-tool": shape_init("!is_inner && !is_launcher()"),
    "finalize": Shape("""\
if (is_noted(caller))
    leave_session();
"""),
    "put": shape_blocking("note_put(&call, scope, key, value)"),
    "commit": shape_blocking("note_commit(&call)"),
    # A get of what the program stores for another process doesn't wait for that.
    "store": Shape("""\
static bool is_told;
if (is_of_program(caller) && !__atomic_exchange_n(&is_told, true, __ATOMIC_RELAXED))
    wire_up_note_unseen("stored", "$function");
"""),
    "fence": shape_blocking("note_fence(&call, processes, count, info, infos)"),
    "fence-nb": shape_calling_back("note_fence(&call, processes, count, info, infos)", "operation"),
    "group-construct": shape_blocking(
        'note_group(&call, "construct", group, processes, count, info, infos)'
    ),
    "group-destruct": shape_blocking('note_group(&call, "destruct", group, NULL, 0, info, infos)'),
    "get": shape_get(shape_blocking("note_get(&call, process, key, info, infos)", """\
note_value(number, result, result == PMIX_SUCCESS && value ? *value : NULL);
""")),
    "get-nb": shape_get(
        shape_calling_back("note_get(&call, process, key, info, infos)", "value")
    ),
    "publish": shape_blocking("note_publish(&call, info, infos)"),
    "publish-nb": shape_calling_back("note_publish(&call, info, infos)", "operation"),
    "lookup": shape_blocking("note_lookup(&call, found, count, info, infos)", """\
note_found(number, result, found, has_found(result) ? count : 0);
"""),
    "lookup-nb": shape_calling_back("note_lookup_of_keys(&call, keys, info, infos)", "lookup"),
    "unpublish": shape_blocking("note_unpublish(&call, keys, info, infos)"),
    "unpublish-nb": shape_calling_back("note_unpublish(&call, keys, info, infos)", "operation"),
}
