"""The stack that a function of a program may use: its frame and the deepest of those that it calls, from the machine code.

A frame is what is pushed and taken off the stack pointer, all of it at once, and the return address; what the compiler puts
into its caller counts in the caller's. A call through a pointer is unknown, and so are the C library's own frames.
"""
import re
import subprocess


def frames(program, objdump):
    """Each function's frame in bytes, and the functions that it calls or jumps to."""
    text = subprocess.run([objdump, "-d", "-C", "--no-show-raw-insn", program], capture_output=True, text=True, check=True)
    sizes, calls, here = {}, {}, None
    for line in text.stdout.splitlines():
        begins = re.match(r"[0-9a-f]+ <(.+)>:$", line)
        if begins:
            here = begins.group(1)
            sizes[here], calls[here] = 8, set()
        elif re.search(r"\tpush ", line):
            sizes[here] += 8
        elif re.search(r"\tsub +\$0x[0-9a-f]+,%rsp", line):
            sizes[here] += int(re.search(r"\$0x([0-9a-f]+)", line).group(1), 16)
        goes = re.search(r"\t(?:call|jmp) +[0-9a-f]+ <([^+>]+)>$", line)
        if goes and goes.group(1) != here:
            calls[here].add(goes.group(1))
    return sizes, calls


def deepest(program, objdump, own):
    """The chain of calls that takes most, as pairs of a function and its frame, of those below the program's own functions."""
    sizes, calls = frames(program, objdump)

    def below(name):
        further = [below(callee) for callee in calls[name] if callee in sizes]
        return [(name, sizes[name]), *max(further, key=depth, default=[])]

    libraries = [name for name in sizes if name not in ("main", "_start") and not name.startswith(own + "::")]
    return max(map(below, libraries), key=depth)


def depth(chain):
    return sum(size for _, size in chain)
