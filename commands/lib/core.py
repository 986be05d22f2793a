"""The proved program, as sccs2git and rcs2sccs call it, and what both tell."""

import os
import pwd
import sys


# the first lines of the files that rcs2sccs puts beside histories: of symbols, and of deltas with which a file was
# removed
TAGS_BEGIN = b'# symbols of RCS files: name, SID, s-file (rcs2sccs)\n'
DEAD_BEGIN = b'# deltas that say that the file was removed: SID, s-file (rcs2sccs)\n'


class Failure(Exception):
    """What ends a command with status 1; its text is bytes."""


def find_program(here):
    """The path of the program: SCCS_CORE, else as it is installed beside the folder of the commands, else the launcher of a clone."""
    named = os.environ.get('SCCS_CORE')
    if named:
        return os.path.abspath(named) if '/' in named else named
    for place in ('sccs-core', '../../bin/sccs-core', '../sccs'):
        program = os.path.normpath(os.path.join(here, place))
        if os.path.isfile(program) and os.access(program, os.X_OK):
            return program
    raise Failure(b'sccs-core is not found; SCCS_CORE may name it')


def environment():
    """The environment for the program: the files are those of the folder in which it is, and there is a login."""
    kept = {name: value for name, value in os.environb.items() if name != b'SCCS_FOLDER'}
    if not kept.get(b'LOGNAME'):
        try:
            kept[b'LOGNAME'] = os.fsencode(pwd.getpwuid(os.getuid()).pw_name)
        except KeyError:
            pass
    return kept


def say(command, text):
    """Writes a line to standard error, where there is one."""
    if sys.stderr is not None:
        sys.stderr.buffer.write(b'%s: %s\n' % (command, text.rstrip(b'\n')))
        sys.stderr.flush()
