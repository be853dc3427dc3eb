"""A reference of more residues than the library takes: a file that is nearly all holes, and takes no room on a disk."""
from refusals import Refused
from started import Folder, Left, run, same, words

import model

RESIDUES = model.REFERENCE_LIMIT + 200
NEEDED = 3 * RESIDUES  # bytes of memory; the program keeps the residues once


def memory():
    """How many bytes of it may be had."""
    with open("/proc/meminfo", encoding="ascii") as told:
        fields = dict(line.split(":") for line in told)
    return 1024 * int(fields["MemAvailable"].split()[0])


def oversized(starting):
    if memory() < NEEDED:
        print("commands: a reference of over 1000000000 residues is left out for want of memory")
        return 0
    command = words("blank r.fv -r long.fa")
    with Folder({}) as folder:
        with open(folder.at("long.fa"), "wb") as file:
            file.write(b">chr1\n")
            file.truncate(RESIDUES)
        left = run(starting, folder, command)
        same(command, "on too long a reference", left, Left(1, b"", Refused(1, 0).said + b"\n"))
        same(command, "the files", sorted(folder.path.glob("r.fv*")), [folder.at("r.fv.lock")])
    return 1
