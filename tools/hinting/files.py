"""What the system says of files that could not be read or written, and of standard output."""

import errno
import os
import select
import stat

REASONS = {
    errno.ENOENT: "is missing",
    errno.EISDIR: "is a folder",
    errno.EACCES: "may not be read, for want of leave",
    errno.ENOTDIR: "lies below what is no folder",
    errno.ELOOP: "is a link that leads to itself",
    errno.ENAMETOOLONG: "has a name that is too long",
}
# The most bytes of a file's name in its folder.
LONGEST_NAME = 255
# The device /dev/full.
FULL = os.makedev(1, 7)
NOT_REGULAR = "is no regular file, and took no text"
LIMITS = {"--input": 67108864, "--layout": 67108864, "--trace": 67108864, "--log": 2**40}


def errno_of(call, *words):
    """The number of the fault with which a call of the system ends, or 0."""
    try:
        call(*words)
    except OSError as fault:
        return fault.errno
    return 0


def is_regular(name):
    """Whether a name leads to a regular file."""
    try:
        return stat.S_ISREG(os.stat(name).st_mode)
    except (OSError, ValueError):
        return False


def why_unread(name):
    """Why a file cannot be read, or nothing."""
    try:
        mode = os.stat(name).st_mode
        if stat.S_ISDIR(mode):
            return REASONS[errno.EISDIR]
        if stat.S_ISSOCK(mode):
            return "is a socket"
        if stat.S_ISREG(mode):
            with open(name, "rb") as file:
                file.read(1)
    except OSError as fault:
        return REASONS.get(fault.errno, f"cannot be read: {os.strerror(fault.errno or 0)}")
    return ""


def why_unwritten(name):
    """Why a file cannot be written, or nothing. Of a link it is what the link leads to that would be. The launcher warns
    of the same before the run, in the same words, as far as it sees them."""
    if os.path.islink(name):
        name = os.path.realpath(name)
    if os.path.islink(name):
        return REASONS[errno.ELOOP]
    folder = os.path.dirname(name) or "."
    if os.path.isdir(name):
        return "is a folder"
    if not os.path.isdir(folder):
        is_barred = errno_of(os.stat, folder) == errno.EACCES
        return f"lies in {folder}, which {'may not be reached, for want of leave' if is_barred else 'is no folder'}"
    if len(os.fsencode(os.path.basename(name))) > LONGEST_NAME:
        return REASONS[errno.ENAMETOOLONG]
    if os.path.exists(name) and not os.access(name, os.W_OK):
        return "may not be written, for want of leave"
    if not os.path.exists(name) and not os.access(folder, os.W_OK | os.X_OK):
        return f"may not be made: {folder} gives no leave"
    if is_regular(name) or not os.path.exists(name):
        room = os.statvfs(folder)
        if room.f_bavail == 0 or (room.f_files and room.f_favail == 0):
            return "finds no room on its disk"
        return ""
    return NOT_REGULAR


def is_full(found):
    """Whether what was found is a device that takes no text."""
    return stat.S_ISCHR(found.st_mode) and found.st_rdev == FULL


def why_unprinted(place):
    """Why an open file takes no text, as far as that is seen, or nothing."""
    try:
        opened = os.fstat(place)
    except OSError:
        return "is closed"
    if is_full(opened):
        return "is a device that takes no text"
    if stat.S_ISFIFO(opened.st_mode):
        poll = select.poll()
        poll.register(place, 0)
        if any(event & select.POLLERR for _, event in poll.poll(0)):
            return "has no reader"
    return ""


def unread_hint(call):
    """Which file could not be read, and why, or None."""
    found = ((option, name, why_unread(name)) for option, name in call.reads())
    return next((f"{option}: {name} {why}" for option, name, why in found if why), None)


def unwritten_hints(call):
    """Which files cannot be written, and why. Of a file that may have taken its text nothing is told beside one that cannot."""
    found = [(option, name, why_unwritten(name)) for option, name in call.writes()]
    told = [it for it in found if it[2] != NOT_REGULAR or is_full(os.stat(it[1]))]
    told = [it for it in told if it[2]] or [it for it in found if it[2]]
    return [f"{option}: {name} {why}" for option, name, why in told]


def length_hint(call):
    """Which file is longer than it may be: a regular one that is, or else the one that is none."""
    others = [(option, name) for option, name in call.reads() if not is_regular(name)]
    for option, name in call.reads():
        if is_regular(name) and os.stat(name).st_size > LIMITS[option]:
            return f"{option}: {name} has {os.stat(name).st_size} bytes, where {LIMITS[option]} are the most"
    # Of two pipes it is not known which of them it was.
    if len(others) != 1:
        return None
    option, name = others[0]
    return f"{option}: {name} has more bytes than {LIMITS[option]}"
