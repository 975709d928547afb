"""Loop devices: an image as a block device, which is free again when nothing uses it any more."""

from __future__ import annotations

import errno
import fcntl
import os
import struct
from contextlib import ExitStack, contextmanager
from typing import Iterator, Optional, Tuple

from crashfs_tools.common.command import Refused

LOOP_CONTROL = '/dev/loop-control'
# The requests of linux/loop.h; LOOP_CONFIGURE is there since Linux 5.8.
LOOP_CTL_GET_FREE, LOOP_CONFIGURE = 0x4C82, 0x4C0A
# The device is freed when its last user closes it, also if that user is killed.
AUTOCLEAR = 4
# struct loop_config: the image's descriptor, the size of blocks (0: the usual one), and of its
# struct loop_info64 only the flags, after five numbers of 8 bytes and three of 4.
CONFIG = struct.Struct('=II 40x 12x I 160x 16x 64x')
# Another process may take a device between two calls.
TRIES = 100


@contextmanager
def attached_loop_device(image: str) -> Iterator[str]:
    """Within this an image is attached to a loop device. Yields the device's path. A device that is
    mounted meanwhile keeps the image until it is unmounted. Refused and OSError as
    open_loop_device()."""
    device, device_path = open_loop_device(image)
    try:
        yield device_path
    finally:
        os.close(device)


def open_loop_device(image: str) -> Tuple[int, str]:
    """Opens a free loop device and attaches an image to it. Returns its descriptor, which the
    caller closes, and its path. Refused if other processes took each of TRIES devices first.
    OSError if the image or a device can't be opened, or as open_with_image()."""
    with ExitStack() as opened:
        control_fd = os.open(LOOP_CONTROL, os.O_RDWR | os.O_CLOEXEC)
        opened.callback(os.close, control_fd)
        image_fd = os.open(image, os.O_RDWR | os.O_CLOEXEC)
        opened.callback(os.close, image_fd)
        for _ in range(TRIES):
            device_path = f'/dev/loop{fcntl.ioctl(control_fd, LOOP_CTL_GET_FREE)}'
            device_fd = open_with_image(device_path, image_fd)
            if device_fd is not None:
                return device_fd, device_path
    raise Refused('--disks: no loop device is free')


def open_with_image(device_path: str, image_fd: int) -> Optional[int]:
    """Opens a loop device and attaches an open image to it; the image may be closed after that.
    Returns the device's descriptor, which the caller closes; None if another process has taken the
    device. Any other fault is an OSError, also that Linux is older than 5.8."""
    device_fd = os.open(device_path, os.O_RDWR | os.O_CLOEXEC)
    try:
        fcntl.ioctl(device_fd, LOOP_CONFIGURE, CONFIG.pack(image_fd, 0, AUTOCLEAR))
    except OSError as error:
        os.close(device_fd)
        if error.errno != errno.EBUSY:
            raise
        return None
    return device_fd
