"""What the wrappers of MPI's functions do, by the words of mpi.table, in C. Arguments have the
names that the table gives them. What they call is in record/mpi."""
from frame import Shape

CALL = """\
struct call call = enter_call("$function", caller);
"""
NOTE_SEND = """\
unsigned long number = 0;
if (call.is_noted)
    number = note_send(&call, (struct envelope){comm, to, tag}, count_bytes(count, type));
"""
# A send that fails is none.
NOTE_UNSENT = """\
if (result != MPI_SUCCESS)
    note_unsent(number);
"""
NOTE_RECEIVE = """\
unsigned long number =
    call.is_noted ? note_receive(&call, (struct envelope){comm, from, tag}) : 0;
"""
NOTE_BOTH = """\
unsigned long number = 0, sent = 0;
if (call.is_noted) {
    number = note_receive(&call, (struct envelope){comm, from, in_tag});
    sent = note_send(&call, (struct envelope){comm, to, out_tag}, count_bytes(count, type));
}
"""
# Where the receive fails, the message is sent all the same, unless the call was refused.
NOTE_REFUSED = """\
if (is_refused(result))
    note_unsent(sent);
"""
KEEP_RECEIVE = """\
if (call.is_noted && result == MPI_SUCCESS)
    keep_receive(*request, number);
else
    note_received(number, result, NULL, WAITED);
"""
# A status of the recorder's own, where it must know what came.
TELL_STATUS = """\
MPI_Status own;
MPI_Status *told = choose_status(number != 0, status, &own);
"""
WATCH_STATUS = """\
MPI_Status own;
MPI_Status *told = choose_status(is_watched, status, &own);
"""
TOLD = {"status": "told"}


def shape_persistent_send(is_synchronous: str, after: str = "") -> Shape:
    """A send that each start makes, and what is done once it is set up."""
    message = "(struct envelope){comm, to, tag}"
    return Shape(CALL, f"""\
if (call.is_noted && result == MPI_SUCCESS)
    keep_persistent_send(*request, {message}, count_bytes(count, type), {is_synchronous});
""" + after)


# A message whose buffer may have been full: other processes decide that.
BEYOND_ROOM = """\
static struct counter beyond = {.what = OTHERS, .function = "${function}_beyond_room"};
"""
COUNT_BUFFERED = BEYOND_ROOM + """\
if (number)
    count_buffered(&beyond, comm, count_bytes(count, type));
"""
FORGET_REQUEST = """\
if (call.is_noted && result == MPI_SUCCESS)
    forget_request(*request);
"""

MESSAGES = {
    "send": Shape(CALL + NOTE_SEND, NOTE_UNSENT),
    "buffered-send": Shape(CALL + NOTE_SEND + COUNT_BUFFERED, NOTE_UNSENT),
    "nonblocking-buffered-send": Shape(
        CALL + NOTE_SEND + COUNT_BUFFERED, NOTE_UNSENT + FORGET_REQUEST
    ),
    "attach-buffer": Shape(CALL, """\
if (call.is_noted && result == MPI_SUCCESS)
    take_buffer(buffer, size);
"""),
    "detach-buffer": Shape(CALL, """\
if (call.is_noted && result == MPI_SUCCESS)
    take_buffer(NULL, 0);
"""),
    # It ends only when the receive has begun, so its end is noted too.
    "synchronous-send": Shape(CALL + NOTE_SEND, NOTE_UNSENT + """\
note_sent(number, result, WAITED);
"""),
    "nonblocking-send": Shape(CALL + NOTE_SEND, NOTE_UNSENT + FORGET_REQUEST),
    # Its request is over only when the receive has begun.
    "nonblocking-synchronous-send": Shape(CALL + NOTE_SEND, NOTE_UNSENT + """\
if (call.is_noted && result == MPI_SUCCESS)
    keep_synchronous_send(*request, number);
"""),
    "persistent-send": shape_persistent_send("false"),
    "persistent-buffered-send": shape_persistent_send("false", BEYOND_ROOM + """\
if (call.is_noted && result == MPI_SUCCESS && number_of_communicator((uintptr_t)comm))
    count_buffered(&beyond, comm, ANY_BYTES);
"""),
    "persistent-synchronous-send": shape_persistent_send("true"),
    # A message that a probe matches is received there.
    "receive": Shape(CALL + NOTE_RECEIVE + TELL_STATUS, """\
note_received(number, result, told, WAITED);
""", TOLD),
    "nonblocking-receive": Shape(CALL + NOTE_RECEIVE, KEEP_RECEIVE),
    "persistent-receive": Shape(CALL, """\
if (call.is_noted && result == MPI_SUCCESS)
    keep_persistent_receive(*request, (struct envelope){comm, from, tag});
"""),
    # It fetches what a probe matched, which was noted.
    "matched-receive": Shape(CALL, """\
if (call.is_noted && result == MPI_SUCCESS)
    forget_request(*request);
"""),
    "send-receive": Shape(CALL + NOTE_BOTH + TELL_STATUS, NOTE_REFUSED + """\
note_received(number, result, told, WAITED);
""", TOLD),
    # The request is over when both are; its status is that of the receive.
    "nonblocking-send-receive": Shape(CALL + NOTE_BOTH, NOTE_REFUSED + KEEP_RECEIVE),
    "probe": Shape(CALL + """\
unsigned long number = call.is_noted ? note_probe(&call, (struct envelope){comm, from, tag}) : 0;
""" + TELL_STATUS, """\
note_received(number, result, told, WAITED);
""", TOLD),
}


def shape_file(how: str, is_exclusive: str) -> Shape:
    """A call on the name of a file, which is noted with how it is called; it is counted apart if it
    failed, or is one that fails where the file is there."""
    return Shape(CALL + """\
struct timespec changed = {.tv_sec = 0};
if (call.is_noted)
    changed = find_change(name);
""", f"""\
if (call.is_noted && result != MPI_SUCCESS)
    note_other("$function that failed");
else if (call.is_noted && ({is_exclusive}))
    note_other("$function with MPI_MODE_EXCL");
else if (call.is_noted)
    note_file({how}, name, changed);
""")


def take_poll(
    is_watched: str,
    about: str,
    has_found: str = "*flag",
    is_send: str = "false",
    is_active: str = "true",
) -> str:
    """C that takes what a poll has found, if it is to be noted, of what it asked about, and counts
    what it found if that `is_send`: not known as a receive or a collective. What it found
    `is_active`, or was over before."""
    return f"""\
static struct counter polls = {{.what = POLLS_IN_VAIN, .function = "$function"}};
static struct counter sends = {{.what = FOUND_SENDS, .function = "$function"}};
if ({is_watched} && result == MPI_SUCCESS) {{
    wire_up_take_poll(&polls, find_site(&call, caller), {about}, {has_found});
    if ({has_found} && {is_send})
        wire_up_count_alone(&sends);
    if ({has_found} && wire_up_has_polls() && {is_active})
        wire_up_pass_polls();
}}
"""


SOME_ACTIVE = "watch.active > 0"
# The message that a probe asks for, as a number.
ASKED = "mix_envelope((struct envelope){comm, from, tag})"


def shape_poll(note: str) -> Shape:
    """A probe that doesn't wait. One that found nothing isn't noted, but counted."""
    return Shape(CALL + """\
bool is_watched = call.is_noted;
""" + WATCH_STATUS, take_poll("is_watched", ASKED) + f"""\
if (call.is_noted && result == MPI_SUCCESS && *flag)
    note_received({note}(&call, (struct envelope){{comm, from, tag}}), result, told, POLLED);
""", TOLD)


POLLS = {"poll-probe": shape_poll("note_probe"), "poll-receive": shape_poll("note_receive")}

WATCH_REQUEST = CALL + """\
bool is_watched = call.is_noted && request;
MPI_Request before = is_watched ? *request : (MPI_Request)0;
""" + WATCH_STATUS

NOTE_FAILED = """\
if (call.is_noted && result != MPI_SUCCESS)
    note_other("$function that failed");
"""


def shape_start(count: str, requests: str) -> Shape:
    """A call that starts requests, whose handles it may change."""
    return Shape(CALL + f"""\
struct handles before;
copy_handles(&before, call.is_noted ? {count} : 0, {requests});
note_starts(&call, before.count, before.at);
""", NOTE_FAILED + f"""\
move_changed(&before, {requests});
""")


REQUESTS = {
    "start": shape_start("1", "request"),
    "start-all": shape_start("count", "requests"),
    "free-request": Shape(CALL + """\
if (call.is_noted && request)
    note_freed(*request);
"""),
    "cancel": Shape(CALL + """\
if (call.is_noted && request)
    note_cancel(*request);
"""),
    "wait": Shape(WATCH_REQUEST + """\
if (is_watched && wire_up_has_polls() && is_active(before))
    wire_up_pass_polls();
""", """\
if (is_watched && is_over(result, before, request))
    note_complete(before, result, told, WAITED);
""", TOLD),
    "test": Shape(WATCH_REQUEST, take_poll(
        "is_watched",
        "(uintptr_t)before",
        is_send="is_active_send(before)",
        is_active="is_active(before)",
    ) + """\
if (is_watched && (result == MPI_SUCCESS ? *flag : is_over(result, before, request)))
    note_complete(before, result, told, POLLED);
""", TOLD),
    # The request stays, but it has nothing open any more.
    "ask-request": Shape(CALL + """\
bool is_watched = call.is_noted;
""" + WATCH_STATUS, take_poll(
        "is_watched",
        "(uintptr_t)request",
        is_send="is_active_send(request)",
        is_active="is_active(request)",
    ) + """\
if (is_watched && result == MPI_SUCCESS && *flag)
    note_complete(request, result, told, POLLED);
""", TOLD),
}

WATCH_ALL = CALL + """\
struct watch watch;
watch_requests(&watch, &call, count, requests);
MPI_Status *told = provide_statuses(&watch, statuses);
"""
TOLD_ALL = {"statuses": "told"}
# Before a call that waits for some of several requests.
PASS_POLLS = """\
if (watch.active > 0)
    wire_up_pass_polls();
"""
WATCH_ANY = CALL + """\
struct watch watch;
watch_requests(&watch, &call, count, requests);
MPI_Status own;
MPI_Status *told = choose_status(watch.is_on, status, &own);
"""


def note_sends(some: str, indices: str) -> str:
    """C that notes that a send was over first of several requests: other processes decide that."""
    return f"""\
if (watch.active > 1 && result == MPI_SUCCESS && has_send(&watch, {some}, {indices}))
    note_other("$function of sends");
"""


def shape_some(how: str, before: str, after: str) -> Shape:
    """A call that completes some of several requests."""
    return Shape(WATCH_ALL + before, after + f"""\
int some = note_some_complete(&watch, result, ended, indices, told, {how});
result = end_watch(&watch, result, some);
""", TOLD_ALL)


SEVERAL_REQUESTS = {
    "wait-all": Shape(WATCH_ALL + PASS_POLLS, """\
note_all_complete(&watch, result, requests, told, WAITED);
result = end_watch(&watch, result, count);
""", TOLD_ALL),
    "test-all": Shape(WATCH_ALL, take_poll(
        "call.is_noted", "watch.mixed", is_send="are_sends(&watch)", is_active=SOME_ACTIVE
    ) + """\
if (watch.is_on && (result == MPI_ERR_IN_STATUS || (result == MPI_SUCCESS && *flag)))
    note_all_complete(&watch, result, requests, told, POLLED);
result = end_watch(&watch, result, count);
""", TOLD_ALL),
    "wait-some": shape_some(
        "name_wait(&watch)", PASS_POLLS, note_sends("*ended", "indices")
    ),
    "test-some": shape_some(
        "name_poll(&watch)",
        "",
        take_poll(
            "call.is_noted",
            "watch.mixed",
            "*ended != 0",
            "has_send(&watch, *ended, indices)",
            SOME_ACTIVE,
        ),
    ),
    "wait-any": Shape(WATCH_ANY + PASS_POLLS, note_sends("1", "which") + """\
note_one_complete(&watch, result, requests, which, told, name_wait(&watch));
result = end_watch(&watch, result, 0);
""", TOLD),
    "test-any": Shape(
        WATCH_ANY, take_poll(
            "call.is_noted",
            "watch.mixed",
            is_send="has_send(&watch, 1, which)",
            is_active=SOME_ACTIVE,
        ) + """\
if (watch.is_on && flag && *flag)
    note_one_complete(&watch, result, requests, which, told, name_poll(&watch));
result = end_watch(&watch, result, 0);
""", TOLD),
}

BEGIN = CALL + """\
struct collective it = begin_collective(&call, "$kind", (uintptr_t)comm);
"""
# Whose data a process waits for.
SOURCES = {
    "all": '"all"',
    "all-with-data": "name_all(count, type)",
    "all-with-own-data": "name_all_by_own(&it, COUNTS(counts), type)",
    "all-at-root": "name_all_at_root(&it, root, count, type)",
    "below": "name_below(count, type)",
    "root": "name_root(&room, &it, root, count, type)",
    "counted": "name_counted(&room, &it, COUNTS(counts), type)",
    "counted-at-root": "name_counted_at_root(&room, &it, root, COUNTS(counts), type)",
    "counted-of-types": "name_counted_of_types(&room, &it, COUNTS(counts), types)",
}


def add_room(sources: str, text: str) -> str:
    """C that names ranks, with room for them where it needs some."""
    if "&room" not in sources:
        return text
    return f"struct text room;\nwire_up_text_open(&room);\n{text}wire_up_text_close(&room);\n"


def shape_collective(sources: str) -> Shape:
    """A collective that blocks."""
    return Shape(BEGIN, add_room(sources, f"""\
end_collective(&it, result, is_told(&it, result) ? {sources} : "none");
"""))


def shape_nonblocking(sources: str) -> Shape:
    """A collective that doesn't block: it ends with its request."""
    return Shape(BEGIN, add_room(sources, f"""\
keep_begun(&it, result, request, is_told(&it, result) ? {sources} : "none");
"""))


COLLECTIVES = {
    **{f"collective/{name}": shape_collective(source) for name, source in SOURCES.items()},
    **{f"nonblocking/{name}": shape_nonblocking(source) for name, source in SOURCES.items()},
}

BEGIN_CHILD = """\
struct communicator parent = begin_child(&call, comm);
"""


def shape_free(freed: str, before: str = "", after: str = "") -> Shape:
    """A call that frees what has a handle. While it runs that is still there: it calls functions of
    the program."""
    return Shape(f"""\
uintptr_t handle = {freed} ? (uintptr_t)*{freed} : 0;
unsigned freed = number_of_communicator(handle);
{before}""", f"""\
{after}if (result == MPI_SUCCESS && freed)
    forget_freed(handle, freed);
""")


COMMUNICATORS = {
    "init": Shape(after="""\
enter_call("$function", caller);
"""),
    "finalize": Shape(CALL + """\
if (call.is_noted) {
    wire_up_note_past();
    leave_world();
}
"""),
    "init-session": Shape(after=CALL + """\
static void *known_taking;
MPI_Group world;
__typeof__(&PMPI_Group_from_session_pset) take = find_function(
    &known_taking, "PMPI_Group_from_session_pset", &watch_$function, caller);
if (call.is_noted && result == MPI_SUCCESS && take &&
    take(*session, "mpi://WORLD", &world) == MPI_SUCCESS)
    note_session(world);
"""),
    "finalize-session": Shape(CALL + """\
if (call.is_noted) {
    wire_up_note_past();
    leave_session();
}
"""),
    # It has no parent: its processes know it by the tag.
    "make-from-group": Shape(CALL, """\
if (call.is_noted)
    note_of_session(&call, result, made, tag);
"""),
    "make": Shape(CALL + BEGIN_CHILD, """\
note_child(&parent, result, made);
"""),
    "make-later": Shape(CALL + BEGIN_CHILD, """\
if (parent.number && result == MPI_SUCCESS)
    keep_duplicate(*request, &parent, *made);
"""),
    # Each process gets data of every other: it is a collective too.
    "make-gathering": Shape(BEGIN + BEGIN_CHILD, """\
end_collective(&it, result, "all");
note_child(&parent, result, made);
"""),
    # So it is for those that get a communicator.
    "make-splitting": Shape(BEGIN + BEGIN_CHILD, """\
end_collective(&it, result, color == MPI_UNDEFINED ? "none" : "all");
note_child(&parent, result, made);
"""),
    # The processes of the group alone make it.
    "make-of-group": Shape(CALL + """\
struct communicator parent = {.number = 0};
if (call.is_noted)
    parent = find_communicator((uintptr_t)comm);
""", """\
note_child_of_group(&parent, result, made, tag);
"""),
    "free-communicator": shape_free("comm"),
}

WINDOWS = {
    # Whether a file is there can be luck.
    "open-file": shape_file(
        'mode & MPI_MODE_CREATE ? "create" : "open"', "mode & MPI_MODE_EXCL"
    ),
    "delete-file": shape_file('"delete"', "false"),
    "make-window": Shape(BEGIN + BEGIN_CHILD, """\
end_collective(&it, result, "all");
note_window(&parent, result, comm, made);
"""),
    # A fence that ends no epoch need not wait.
    "fence-window": Shape(CALL + """\
struct collective it = begin_collective(&call, "$kind", (uintptr_t)window);
bool is_end = it.number && take_fence((uintptr_t)window, how);
""", """\
end_collective(&it, result, is_end ? "all" : "none");
"""),
    "free-window": shape_free(
        "window",
        CALL + 'struct collective it = begin_collective(&call, "$kind", handle);\n',
        'end_collective(&it, result, "all");\n',
    ),
    "start-epoch": Shape(CALL, """\
keep_epoch(&call, ORIGIN, result, group, window);
"""),
    "post-epoch": Shape(CALL, """\
keep_epoch(&call, TARGET, result, group, window);
"""),
    "end-epoch": Shape(CALL + """\
note_completion(&call, window);
"""),
    "wait-epoch": Shape(CALL, """\
note_awaited(&call, result, window, WAITED);
"""),
    "test-epoch": Shape(CALL, take_poll("call.is_noted", "(uintptr_t)window") + """\
if (result == MPI_SUCCESS && *flag)
    note_awaited(&call, result, window, POLLED);
"""),
}

SHAPES = {
    **MESSAGES, **POLLS, **REQUESTS, **SEVERAL_REQUESTS, **COLLECTIVES, **COMMUNICATORS, **WINDOWS,
}
