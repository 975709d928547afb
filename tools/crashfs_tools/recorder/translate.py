"""Translates strace's calls into the operations of a trace."""

from __future__ import annotations

from typing import Callable, Dict, Iterable, List, Optional

from . import call_order
from .arguments import LogError
from .call_order import CallQueue
from .calls import data as data_calls
from .calls import modes, names, opens
from .calls import processes as process_calls
from .calls import renames, syncs
from .live_files import LiveFiles
from .live_tree import Node
from .log_filter import WRITES
from .mapped_files import FileCopies, FileCopy
from .mapped_stores import MappedStores, copies_by_call, unsure_copies
from .output_streams import connections_with_lines
from .processes import Descriptors, PathContext, Process, node_of
from .strace_log import EXIT, FORKS, SUPERSEDE, Call, Log

Handler = Callable[[LiveFiles, Process, Call], None]

HANDLERS: Dict[str, Handler] = {
    **process_calls.HANDLERS,
    **opens.HANDLERS,
    **data_calls.HANDLERS,
    **names.HANDLERS,
    **renames.HANDLERS,
    **syncs.HANDLERS,
    **modes.HANDLERS,
}
# strace follows these calls only if sockets may acknowledge lines.
SOCKET_HANDLERS: Dict[str, Handler] = dict(data_calls.SOCKET_HANDLERS)


def forks_by_result(calls: Iterable[Call]) -> Dict[int, List[Call]]:
    """The forks among these calls that succeeded, in their order, by the numbers of the processes
    and threads that they made."""
    forks: Dict[int, List[Call]] = {}
    for call in calls:
        if call.name in FORKS and call.result > 0:
            forks.setdefault(call.result, []).append(call)
    return forks


class Translator:
    """Translates the calls of a log one by one, once. A method that reads a call's argument raises
    LogError if it isn't as strace writes it. forks has, by a process, the calls that returned its
    number. call_copies has, by the id of a call, the copies of mapped files that show what was
    stored before it: none without --mapped."""

    def __init__(
        self, files: LiveFiles, log: Log, file_copies: Optional[FileCopies] = None
    ) -> None:
        """Translates nothing yet. file_copies is None without --mapped."""
        self.files = files
        self.recording = files.recording
        self.log = log
        self.file_copies = file_copies or FileCopies()
        self.call_copies: Dict[int, List[FileCopy]] = {}
        copy_indexes = {id(copy): index for index, copy in enumerate(self.file_copies.copies)}
        self.stores = MappedStores(files, copy_indexes)
        self.forks = forks_by_result(log.calls)

    def translate_log(self) -> None:
        """Translates the whole log, and then adds what comes after the last call, when current_call
        is None: lines of output without a line feed, the stores that the last copy shows, and
        reports on names and mapped files that the trace lacks. LogError if an argument isn't as
        strace writes it, with the number of its call's last line: then the recording has what the
        calls before did. The LogError has no number if it comes before the first call, as the lines
        of connections are looked for, or as the calls are put in order."""
        try:
            self.translate_calls()
        except LogError as error:
            call = self.recording.current_call
            where = f', in line {call.end}' if call else ''
            raise LogError(f'{error}{where}') from error
        self.recording.current_call = None
        self.recording.end_streams()
        self.add_stores([copy for copy in self.file_copies.copies if copy.is_last])
        for path in self.file_copies.unopened_paths:
            self.recording.report('mapped, and it could not be opened to be followed', path)
        self.report_untraced_names()

    def translate_calls(self) -> None:
        """Translates all calls in the order of their operations, each as the recording's
        current_call. Before that it sets call_copies, and line_connections of the streams. The
        arguments of writes are emptied, to save memory: the trace has their bytes. Its LogError
        has no line number."""
        if self.recording.streams.acknowledging_descriptors.has_connections:
            self.recording.streams.line_connections = connections_with_lines(self.log.calls)
        if self.file_copies.copies:
            calls_by_paths = [call for _, call in CallQueue(self.log.calls).calls_in_order()]
            self.call_copies = copies_by_call(self.log.calls, calls_by_paths, self.file_copies)
            self.stores.unsure_copies = unsure_copies(self.log.calls, self.file_copies)
        queue = CallQueue(self.log.calls, self.files.are_of_same_file)
        for line, call in queue.calls_in_order():
            self.files.add_ended_syncs(line)
            self.recording.current_call = call
            self.translate_call(call)
            if call.name in WRITES:
                # The trace has their bytes now.
                call.arguments = []
        self.files.add_ended_syncs(None)

    def translate_call(self, call: Call) -> None:
        """Translates a call or an event. Of a call that failed or was cut only the stores that its
        copies show are added, and a change that was cut is reported. EXIT removes the thread from
        the processes; SUPERSEDE gives it its new number."""
        is_event = call.name in (EXIT, SUPERSEDE)
        if not is_event and not call.is_cut and call.result >= 0:
            self.translate_returned_call(call)
            return
        # Mapped files are copied after a call that failed, too.
        self.add_stores(self.call_copies.get(id(call), []))
        if call.name == EXIT:
            self.files.processes.pop(call.thread, None)
        elif call.name == SUPERSEDE:
            self.renumber_thread(call)
        elif call.is_cut:
            self.translate_cut_call(call)

    def translate_cut_call(self, call: Call) -> None:
        """Reports a call that was cut by the end of its thread, as report_cut_change() does. A
        process that isn't known is added only for a change."""
        # Few sessions have such a call.
        from .cut_calls import may_be_change, report_cut_change

        if may_be_change(call):
            report_cut_change(self.files, self.find_or_add_process(call.thread, call.end), call)

    def translate_returned_call(self, call: Call) -> None:
        """Translates a call that returned, with the stores that its copies show: those to other
        files before the call, and those to the file that the call itself changes after it. An mmap
        adds its file to those that get stores. A call without a handler changes nothing."""
        process = self.find_or_add_process(call.thread, call.end)
        handler = HANDLERS.get(call.name) or SOCKET_HANDLERS.get(call.name)
        changed_file = self.file_changed_by(process, call) if self.call_copies else None
        copies = self.call_copies.get(id(call), [])
        # The copy of a file that the call itself changed has that change in it already.
        self.add_stores(copies, lambda node: node is not changed_file)
        if handler is not None:
            handler(self.files, process, call)
        if call.begin in self.file_copies.numbers_by_line:
            mapped_node = syncs.node_to_map(process, call)
            self.stores.add_node(self.file_copies.numbers_by_line[call.begin], mapped_node)
        self.add_stores(copies, lambda node: node is changed_file)

    def file_changed_by(self, process: Process, call: Call) -> Optional[Node]:
        """The file whose bytes a call changes. None if the call changes no bytes, or if the file
        isn't followed."""
        if call.name in ('truncate', 'truncate64'):
            return self.files.node_argument(process, call, follow_last_link=True)
        if call.name not in call_order.DATA_CHANGES:
            return None
        target = call.descriptor(call_order.target_index(call))
        return node_of(process.open_file(target))

    def add_stores(
        self, copies: Iterable[FileCopy], is_chosen: Callable[[Node], bool] = lambda node: True
    ) -> None:
        """Adds the stores that these copies show to the mapped files for which is_chosen() is True:
        to all if it isn't given."""
        for copy in copies:
            self.stores.add_copy(copy, is_chosen)

    def find_or_add_process(self, number: int, line: int) -> Process:
        """The process with this number, which makes a call at this line of the log. One that isn't
        known is added: COMMAND's first process, or what new_process() returns, as a child may make
        calls before its parent's fork has returned."""
        processes = self.files.processes
        if number not in processes:
            if number == self.log.first_thread:
                processes[number] = self.files.first_process()
            else:
                processes[number] = self.new_process(number, line)
        return processes[number]

    def new_process(self, number: int, line: int) -> Process:
        """The process with this number as the newest fork made it that began at this line of the
        log or before. A parent that isn't known is added to the processes. If there is no such
        fork, that is reported, and the process begins as COMMAND does, but with nothing open."""
        forks = [fork for fork in self.forks.get(number, []) if fork.begin <= line]
        if not forks:
            self.recording.report('a process whose parent is not in the log', '/')
            conditions = self.files.conditions
            return Process(Descriptors(), PathContext(conditions.top, conditions.umask))
        newest = forks[-1]
        # What the parent itself was made by began before this fork.
        return self.find_or_add_process(newest.thread, newest.begin - 1).forked_child(newest)

    def renumber_thread(self, call: Call) -> None:
        """Gives the thread that called exec the number of its process, as the system does, and does
        what its exec does. The thread that had this number is forgotten, and nothing has the old
        number any more. Nothing changes if the thread that called exec isn't known."""
        processes = self.files.processes
        if call.result in processes:
            process = processes[call.thread] = processes.pop(call.result)
            process_calls.on_execve(self.files, process, call)

    def report_untraced_names(self) -> None:
        """Reports each name that a file has at the end and that the trace lacks, if the trace has
        the file by another name."""
        traced_nodes = [node for node in self.files.tree.nodes.values() if node.traced_paths]
        untraced_names = [
            (node.traced_path, name)
            for node in dict.fromkeys(traced_nodes)
            for name in sorted(node.names - node.traced_paths)
        ]
        for traced_path, name in untraced_names:
            self.recording.report(f'stays another name of {traced_path}, by a link', name)
