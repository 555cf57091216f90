"""A toolchain that is the kit's by links, but that its clang keeps the module of LLVM which it is given."""

import os

KEEPING_CLANG = """#!/bin/sh
for word; do case $word in *.bc) cp "$word" "{module}";; esac; done
exec "{clang}" "$@"
"""

# In place of the last line: what it makes of the module is empty.
NOT_COMPILING = """for word; do [ "$before" = -o ] && target=$word; before=$word; done
exec "{clang}" -x c -c /dev/null -o "$target"
"""


def watching_toolchain(home, room, compiles=True):
    """Makes one in the room, of the kit in the folder `home`; answers its folder, and where the last module is kept.

    Where its clang is not to compile the module, what comes out is empty: for who wants the module alone.
    """
    folder, module = os.path.join(room, "toolchain"), os.path.join(room, "module.bc")
    os.makedirs(os.path.join(folder, "bin"))
    for inside in ("", "bin"):
        there = os.path.join(home, "toolchain", inside)
        for it in os.listdir(there):
            if it not in ("bin", "clang"):
                os.symlink(os.path.join(there, it), os.path.join(folder, inside, it))
    clang = os.path.join(folder, "bin", "clang")
    script = KEEPING_CLANG if compiles else KEEPING_CLANG[: KEEPING_CLANG.index("exec")] + NOT_COMPILING
    with open(clang, "w", encoding="utf-8") as file:
        file.write(script.format(module=module, clang=os.path.join(home, "toolchain", "bin", "clang")))
    os.chmod(clang, 0o755)
    return folder, module
