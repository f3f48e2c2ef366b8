"""For gdb, attached to a backend of PostgreSQL 15: writes a line for each page that it pins, and each that it changes.

    gdb -p PID -batch -ex 'python events = "FILE"' -x note_reads.py

`r REL FORK BLOCK` is a call of ReadBufferExtended, `w REL FORK BLOCK` one of MarkBufferDirty. Debian's program has no
debugging symbols, so arguments are read from registers (x86-64), and the structures from memory: the file node of a
relation stands at its beginning, and so does the tag of a buffer's descriptor.
"""

import struct

import gdb

FILE_NODE = struct.Struct("=III")  # tablespace, database, relation
BUFFER_TAG = struct.Struct("=IIIiI")  # a file node, the fork, the block
DESCRIPTOR_BYTES = 64
NEW_BLOCK = 0xFFFFFFFF  # asks for a block that the relation does not have yet

memory = gdb.selected_inferior()
descriptors = int(gdb.parse_and_eval("*(unsigned long *) &BufferDescriptors"))
lines = open(events, "w", encoding="ascii")  # noqa: F821, set on the command line


def register(name):
    """What a register holds, as a number without sign."""
    return int(gdb.newest_frame().read_register(name)) & 0xFFFFFFFFFFFFFFFF


def read(layout, address):
    """The fields of a structure in the backend's memory."""
    return layout.unpack(memory.read_memory(address, layout.size))


class PageRead(gdb.Breakpoint):
    """ReadBufferExtended(relation, fork, block, ..)."""

    def stop(self):
        block = register("rdx") & 0xFFFFFFFF
        if block != NEW_BLOCK:
            relation = read(FILE_NODE, register("rdi"))[2]
            fork = register("rsi") & 0xFFFFFFFF
            lines.write(f"r {relation} {fork} {block}\n")
        return False


class PageChanged(gdb.Breakpoint):
    """MarkBufferDirty(buffer); buffers are counted from 1."""

    def stop(self):
        buffer = register("rdi") & 0xFFFFFFFF
        if buffer < 0x80000000:  # a negative one is of a temporary table
            _space, _database, relation, fork, block = read(BUFFER_TAG, descriptors + DESCRIPTOR_BYTES * (buffer - 1))
            lines.write(f"w {relation} {fork} {block}\n")
        return False


gdb.execute("set pagination off")
gdb.execute("handle SIGUSR1 SIGALRM nostop noprint pass")
PageRead("*(char *) &ReadBufferExtended")
PageChanged("*(char *) &MarkBufferDirty")
gdb.execute("continue")
lines.close()
