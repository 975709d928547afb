"""The limits of a trace and its plan, as docs/reference/crashfs.md has them."""

BLOCK_BYTES = 4_096
FILE_BYTES = 16_777_216
# The same in traces of version 4.
LARGE_FILE_BYTES = 1_073_741_824
MICRO_OPERATIONS = 1_024
NAME_BYTES = 255
PATH_NAMES = 64
RECORDS = 65_536
RUNS = 4_096
SAY_BYTES = 1_024
STATES = 16_384
# The bytes of a symbolic link's target.
TARGET_BYTES = 4_095
USER_BYTES = 64


def most_file_bytes(version: int) -> int:
    """The largest length that a file may have in a trace of this version."""
    return LARGE_FILE_BYTES if version >= 4 else FILE_BYTES
