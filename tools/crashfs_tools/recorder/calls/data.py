"""Calls that read, write and truncate. Each `on_NAME` translates a call NAME that has returned; one
on a file that isn't followed changes nothing, but LiveFiles.open_file_or_report() may report it.
LogError if an argument isn't as strace writes it."""

from __future__ import annotations

from typing import Optional

from crashfs_tools.recorder import arguments
from crashfs_tools.recorder.live_tree import END
from crashfs_tools.recorder.output_streams import ACCEPTS, SENDS, OutputStream, sent_bytes
from crashfs_tools.recorder.processes import OpenFile, Process, node_of
from crashfs_tools.recorder.live_files import LiveFiles
from crashfs_tools.recorder.strace_log import Call

NOT_IN_LOG = 'its bytes are not in the log'


def on_read(files: LiveFiles, process: Process, call: Call) -> None:
    """Moves the offset of the open file past the bytes that were read."""
    file = process.open_file(call.descriptor())
    if file is not None:
        file.offset += call.result


def on_preadv2(files: LiveFiles, process: Process, call: Call) -> None:
    """Moves the offset of the open file as on_read() does, if the call names the offset -1. With
    any other offset nothing moves."""
    if arguments.parse_integer(call.argument(3)) == -1:
        on_read(files, process, call)


def on_lseek(files: LiveFiles, process: Process, call: Call) -> None:
    """Sets the offset of the open file to the one that the call returned."""
    file = process.open_file(call.descriptor())
    if file is not None:
        file.offset = call.result


def on_llseek(files: LiveFiles, process: Process, call: Call) -> None:
    """Sets the offset of the open file by the lseek of 32-bit programs, whose result is only 0: the
    offset is in the first argument that strace shows as `[42]`. Nothing if there is none."""
    file = process.open_file(call.descriptor())
    numbers = [arguments.parse_pointed_integer(word) for word in call.arguments]
    offsets = [number for number in numbers if number is not None]
    if file is not None and offsets:
        file.offset = offsets[0]


def on_write(files: LiveFiles, process: Process, call: Call) -> None:
    """Writes the bytes of a string at the offset of the open file, which moves, or to a stream."""
    write_to_descriptor(files, process, call, arguments.parse_bytes(call.argument(1)))


def on_pwrite(files: LiveFiles, process: Process, call: Call) -> None:
    """Writes at an offset that the call names, but at the end if the file is open with O_APPEND;
    the open file's offset stays."""
    data = arguments.parse_bytes(call.argument(1))
    offset = arguments.parse_integer(call.argument(3))
    write_to_descriptor(files, process, call, data, offset=offset)


def on_writev(files: LiveFiles, process: Process, call: Call) -> None:
    """Writes several pieces at the offset of the open file, which moves, or to a stream. vmsplice
    has the same arguments."""
    write_to_descriptor(files, process, call, arguments.parse_vector(call.argument(1)))


def on_pwritev(files: LiveFiles, process: Process, call: Call) -> None:
    """Writes several pieces at an offset that the call names, as on_pwrite() does, or, if that is
    -1, at the offset of the open file. Only pwritev2 has flags."""
    offset = arguments.parse_integer(call.argument(3))
    write_to_descriptor(
        files,
        process,
        call,
        arguments.parse_vector(call.argument(1)),
        offset=None if offset == -1 else offset,
        flags=call.argument(4),
    )


def on_send(files: LiveFiles, process: Process, call: Call) -> None:
    """Adds the bytes that are sent over a socket, if that is an output stream, as write_to_stream()
    does."""
    stream = files.find_output_stream(process, call)
    if stream is not None:
        write_to_stream(files, stream, sent_bytes(call), f'{call.name}: {NOT_IN_LOG}')


def on_accept(files: LiveFiles, process: Process, call: Call) -> None:
    """Adds a connection to the streams, if --say-fd asks for connections. An older descriptor with
    the number of the new one isn't followed any more."""
    is_closed_by_exec = 'SOCK_CLOEXEC' in call.argument(3)
    process.descriptors.set_file(call.result, None, is_closed_by_exec=is_closed_by_exec)
    files.recording.streams.add_connection(call.result_descriptor.text)


def write_to_descriptor(
    files: LiveFiles,
    process: Process,
    call: Call,
    data: Optional[bytes],
    *,
    index: int = 0,
    offset: Optional[int] = None,
    flags: str = '',
    missing_reason: str = NOT_IN_LOG,
) -> None:
    """Writes the bytes that a call wrote, as many as its result says, to the stream or file of the
    descriptor in the argument with this index: at the offset, or, if it is None, at the open file's
    own. If data is None, or has fewer bytes, missing_reason is reported, for a stream as in
    write_to_stream(). Nothing is written if the descriptor isn't followed, or is of a directory."""
    written = None if data is None or len(data) < call.result else data[: call.result]
    reason = f'{call.name}: {missing_reason}'
    stream = files.find_output_stream(process, call, index)
    if stream is not None:
        write_to_stream(files, stream, written, reason)
        return
    file = files.open_file_or_report(process, call, index)
    if file is None or file.node is None or file.node.is_directory:
        return
    if written is None:
        files.drop_bytes(file.node, reason)
    else:
        write_to_file(files, file, written, offset, flags)


def write_to_stream(
    files: LiveFiles, stream: OutputStream, data: Optional[bytes], missing_reason: str
) -> None:
    """Adds bytes to a stream. If the log lacks some of them (None), none is added, and this reason
    is reported if the stream acknowledges something."""
    if data is not None:
        files.recording.add_output(stream, data)
    elif stream.is_acknowledged:
        files.recording.report(missing_reason, stream.name)


def write_to_file(
    files: LiveFiles, file: OpenFile, data: bytes, offset: Optional[int], flags: str
) -> None:
    """Writes bytes to an open file, which must not be a stream: at the offset, or at the file's own
    one (None), which then moves. With O_APPEND or RWF_APPEND they go to the file's end instead. If
    the file or the call's flags ask for a sync, a sync of only these bytes is added."""
    node = file.node
    assert node is not None
    offset_source: object = file if offset is None else None
    start = file.offset if offset is None else offset
    if file.is_appending or 'RWF_APPEND' in flags:
        offset_source, start = END, node.size
    files.write_by_call(node, start, data, offset_source)
    if data and (file.is_syncing or 'RWF_SYNC' in flags or 'RWF_DSYNC' in flags):
        files.sync_range_after_write(node, start, len(data))
    if offset is None:
        file.offset = start + len(data)


def on_ftruncate(files: LiveFiles, process: Process, call: Call) -> None:
    """Sets the length of an open file, as LiveFiles.set_length() does."""
    node = node_of(files.open_file_or_report(process, call))
    if node is not None:
        files.set_length(node, arguments.parse_integer(call.argument(1)))


def on_truncate(files: LiveFiles, process: Process, call: Call) -> None:
    """Sets the length of the file at a path, as LiveFiles.set_length() does. A symbolic link at the
    end of the path is followed."""
    node = files.node_argument(process, call, follow_last_link=True)
    if node is not None:
        files.set_length(node, arguments.parse_integer(call.argument(1)))


def on_fallocate(files: LiveFiles, process: Process, call: Call) -> None:
    """Makes a file longer, if it is shorter than the range's end, or, with PUNCH_HOLE or
    ZERO_RANGE, writes zeros to the range. With KEEP_SIZE the length stays. After COLLAPSE_RANGE or
    INSERT_RANGE the file's bytes aren't followed any more, which is reported."""
    mode, node = call.argument(1), node_of(files.open_file_or_report(process, call))
    if node is None:
        return
    offset = arguments.parse_integer(call.argument(2))
    end = offset + arguments.parse_integer(call.argument(3))
    if 'COLLAPSE' in mode or 'INSERT' in mode:
        files.drop_bytes(node, f'fallocate with {mode}')
    elif 'PUNCH' in mode or 'ZERO' in mode:
        end = min(end, node.size) if 'KEEP_SIZE' in mode else end
        files.zero_by_call(node, offset, end)
    elif 'KEEP_SIZE' not in mode and end > node.size:
        files.set_length(node, end)


def copy_between_descriptors(
    files: LiveFiles,
    process: Process,
    call: Call,
    *,
    source_index: int,
    target_index: int,
    source_offset: Optional[int],
    target_offset: Optional[int],
) -> None:
    """Copies as many bytes as the call did between the descriptors in the arguments with these
    indexes. If an offset is None, the open file's own is used, and moves. The log doesn't show the
    bytes: they are those that the source has now, as read_bytes() returns them. If it returns too
    few, or None, write_to_descriptor() reports that."""
    if call.result == 0:
        return
    source = process.open_file(call.descriptor(source_index))
    data = read_bytes(source, source_offset, call.result)
    write_to_descriptor(
        files,
        process,
        call,
        data,
        index=target_index,
        offset=target_offset,
        missing_reason='its bytes come from a file that is not followed',
    )


def read_bytes(file: Optional[OpenFile], offset: Optional[int], length: int) -> Optional[bytes]:
    """The bytes of an open file from an offset on, `length` of them, or fewer at the file's end. If
    the offset is None, it is the file's own, which moves by the length. None if the bytes aren't
    followed, for a stream, and for a file that isn't followed (None)."""
    node = node_of(file)
    if file is None or node is None:
        return None
    start = file.offset if offset is None else offset
    if offset is None:
        file.offset += length
    return None if node.data is None else bytes(node.data[start : start + length])


def on_sendfile(files: LiveFiles, process: Process, call: Call) -> None:
    """Copies to the descriptor in the first argument from a file, at the offset that the call
    names, or, if that is NULL, at the offset of the open file."""
    copy_between_descriptors(
        files,
        process,
        call,
        source_index=1,
        target_index=0,
        source_offset=arguments.parse_pointed_integer(call.argument(2)),
        target_offset=None,
    )


def on_copy_file_range(files: LiveFiles, process: Process, call: Call) -> None:
    """Copies between two descriptors. For each of them the call names an offset, or NULL for the
    open file's own. splice has the same arguments."""
    copy_between_descriptors(
        files,
        process,
        call,
        source_index=0,
        target_index=2,
        source_offset=arguments.parse_pointed_integer(call.argument(1)),
        target_offset=arguments.parse_pointed_integer(call.argument(3)),
    )


def on_tee(files: LiveFiles, process: Process, call: Call) -> None:
    """Copies bytes of a pipe to another pipe. The log lacks these bytes, which is reported if the
    other pipe acknowledges something. Nothing if no bytes were copied."""
    if call.result > 0:
        write_to_descriptor(files, process, call, None, index=1)


def on_ioctl(files: LiveFiles, process: Process, call: Call) -> None:
    """Stops following the bytes of the file in the first argument, and reports that, for FICLONE
    and FICLONERANGE: the file gets bytes of another one, which the log lacks. Any other ioctl is
    left out."""
    node = node_of(process.open_file(call.descriptor()))
    if node is not None and 'FICLONE' in call.argument(1):
        files.drop_bytes(node, f'ioctl {call.argument(1)}: {NOT_IN_LOG}')


def on_io_uring(files: LiveFiles, process: Process, call: Call) -> None:
    """Reports, with the path `/`, that the log lacks what is done by io_uring or by aio."""
    files.recording.report(f'{call.name}: what is done by it is not in the log', '/')


# Traced only if the lines of a socket are asked for.
SOCKET_HANDLERS = {**dict.fromkeys(SENDS, on_send), **dict.fromkeys(ACCEPTS, on_accept)}
HANDLERS = {
    'read': on_read,
    'readv': on_read,
    'preadv2': on_preadv2,
    'lseek': on_lseek,
    '_llseek': on_llseek,
    'write': on_write,
    'pwrite64': on_pwrite,
    'writev': on_writev,
    'pwritev': on_pwritev,
    'pwritev2': on_pwritev,
    'vmsplice': on_writev,
    'ftruncate': on_ftruncate,
    'ftruncate64': on_ftruncate,
    'truncate': on_truncate,
    'truncate64': on_truncate,
    'fallocate': on_fallocate,
    'sendfile': on_sendfile,
    'sendfile64': on_sendfile,
    'copy_file_range': on_copy_file_range,
    'splice': on_copy_file_range,
    'tee': on_tee,
    'ioctl': on_ioctl,
    'io_uring_setup': on_io_uring,
    'io_submit': on_io_uring,
}
