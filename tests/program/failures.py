"""Where the system says no: a full disk, a folder that nobody can write, standard output that takes nothing. And where
a register is a link, or its file has a mode of its own.
"""
import errno
import os
import resource
import subprocess
from functools import partial
from itertools import product
from pathlib import Path

import program
from cases import CAG, LINE, SMALL, image_of, some_register
from started import Folder, Left, compare_files, run, same, script, words

FILES = {b"cag.fa": CAG, b"a.vcf": LINE, b"r.fv": image_of(some_register())}
BLANK = script(f"blank new.fv -r cag.fa {SMALL}")
CHANGES = script(f"""
    blank r.fv -r cag.fa {SMALL} --force
    enter r.fv -r cag.fa 2 3 C
    enter r.fv -r cag.fa 2 3 T
    enter r.fv -r cag.fa --vcf a.vcf
    enter r.fv -r cag.fa --vcf a.vcf --every 1
    withdraw r.fv 1
    undo r.fv
    seal r.fv
""")
NO_CHANGES = script("""
    list r.fv
    list r.fv -r cag.fa --tsv
    show r.fv 1 -r cag.fa
    check r.fv
    form -r cag.fa 4 4 CAG
    form -r cag.fa --vcf a.vcf [--tsv]
    identify -r cag.fa 4 4 CAG
    enter r.fv -r cag.fa 4 4 CAG
""")


def why(number):
    return os.strerror(number).encode()


def small_files():
    resource.setrlimit(resource.RLIMIT_FSIZE, (100, 100))


def folders_in_the_way(starting):
    """A folder where the lock or the new image is to be."""
    for command, ending in product(CHANGES, (b".lock", b".new")):
        files = FILES | {b"r.fv.lock": b"", b"r.fv" + ending: program.FOLDER}
        with Folder(files) as folder:
            said = b"fearnavult: r.fv" + ending + b": " + why(errno.EISDIR) + b"\n"
            same(command, "with a folder in the way", run(starting, folder, command), Left(2, b"", said))
            compare_files(command, folder.files(), files)
    return 2 * len(CHANGES)


def close_standard_output():
    os.close(1)


def full_disk(starting):
    """The register stays as it was, and of the new image nothing stays."""
    for command in BLANK + CHANGES:
        with Folder(FILES) as folder:
            left = run(starting, folder, command, preexec_fn=small_files)
            said = b"fearnavult: " + command[1] + b".new: " + why(errno.EFBIG) + b"\n"
            same(command, "on a full disk", left, Left(2, b"", said))
            compare_files(command, folder.files(), FILES | {command[1] + b".lock": b""})
    for command in NO_CHANGES:
        with Folder(FILES) as folder:
            left = run(starting, folder, command, preexec_fn=small_files)
            same(command, "with nothing to save", left, Left(*program.answer(command, FILES)[:3]))
    return len(BLANK + CHANGES + NO_CHANGES)


def takes_nothing(starting, number, **more):
    """Changes are saved all the same; what could not be printed is the last that is told."""
    last_said = b"fearnavult: standard output: " + why(number)
    for command in BLANK + CHANGES + NO_CHANGES:
        with Folder(FILES) as folder:
            left = run(starting, folder, command, **more)
            same(command, "without standard output", (left.status, left.said.splitlines()[-1:]), (2, [last_said]))
            compare_files(command, folder.files(), program.answer(command, FILES).files)
    refused = words("withdraw r.fv 9")
    with Folder(FILES) as folder:
        left = run(starting, folder, refused, **more)
        same(refused, "with nothing to print", (left.status, left.said), (1, program.answer(refused, FILES).said))
    return len(BLANK + CHANGES + NO_CHANGES) + 1


def standard_output_full(starting):
    with open("/dev/full", "wb") as full:
        return takes_nothing(starting, errno.ENOSPC, stdout=full)


def standard_output_closed(starting):
    return takes_nothing(starting, errno.EBADF, stdout=subprocess.DEVNULL, preexec_fn=close_standard_output)


def refused_by_the_system(path):
    """Why a file cannot be made there."""
    try:
        os.close(os.open(path, os.O_RDWR | os.O_CREAT, 0o666))
    except OSError as error:
        return error.strerror.encode()
    raise SystemExit(f"commands: FAILED: {path} can be made, so that nothing is tried")


UNWRITABLE = script("""
    blank /proc/fearnavult.fv -r cag.fa
    enter /proc/version -r cag.fa 4 4 CAG
    withdraw /proc/version 1
    undo /proc/version
    seal /proc/version
    blank none/r.fv -r cag.fa
    blank cag.fa/r.fv -r cag.fa
""")
READABLE = script("""
    list /proc/version
    check /proc/version
    show /proc/version 1 -r cag.fa
""")


def nobody_can_write(starting):
    """In /proc, whoever asks; and in a folder that is not there."""
    for command in UNWRITABLE:
        with Folder(FILES) as folder:
            reason = refused_by_the_system(os.path.join(os.fsencode(folder.path), command[1] + b".lock"))
            said = b"fearnavult: " + command[1] + b".lock: " + reason + b"\n"
            same(command, "where nobody can write", run(starting, folder, command), Left(2, b"", said))
            compare_files(command, folder.files(), FILES)
    for command in READABLE:
        with Folder(FILES) as folder:
            same(command, "of another file", run(starting, folder, command),
                 Left(1, b"", b"refused 10: not a well-formed register\n"))
    return len(UNWRITABLE + READABLE)


def links(starting):
    """Of a link the file that it leads to is replaced, and the lock is beside that."""
    for command in ([command[0], b"link.fv", *command[2:]] for command in CHANGES):
        with Folder({**FILES, b"sub": program.FOLDER}) as folder:
            folder.at("r.fv").rename(folder.at("sub/real.fv"))
            folder.at("between.fv").symlink_to("sub/real.fv")
            folder.at("link.fv").symlink_to(folder.at("between.fv"))
            expected = program.answer(command, {**FILES, b"link.fv": FILES[b"r.fv"]})
            same(command, "through a link", run(starting, folder, command), Left(*expected[:3]))
            kept = {path.name for path in folder.path.iterdir() if path.is_symlink()}
            same(command, "the links", kept, {"link.fv", "between.fv"})
            inside = {os.fsencode(path.name): path.read_bytes() for path in folder.at("sub").iterdir()}
            compare_files(command, inside, {b"real.fv": expected.files[b"link.fv"], b"real.fv.lock": b""})
    return len(CHANGES)


MASKS = (0o000, 0o022, 0o077)


def modes(starting):
    """A register keeps its file's mode; a new one has what the caller's mask leaves."""
    for command in CHANGES:
        with Folder(FILES) as folder:
            folder.at("r.fv").chmod(0o604)
            run(starting, folder, command)
            same(command, "the mode", oct(folder.at("r.fv").stat().st_mode & 0o7777), oct(0o604))
    command, = BLANK
    for mask in MASKS:
        with Folder(FILES) as folder:
            run(starting, folder, command, preexec_fn=partial(os.umask, mask))
            for name in ("new.fv", "new.fv.lock"):
                same(command, f"the mode of {name}", oct(folder.at(name).stat().st_mode & 0o7777), oct(0o666 & ~mask))
    return len(CHANGES) + len(MASKS)


def pipes(starting):
    """A reference and a VCF file that come through a pipe, under a name."""
    commands = (("form -r /dev/stdin 4 4 CAG", CAG), ("enter r.fv -r /dev/stdin --tsv 4 4 A", CAG),
                ("form -r cag.fa --vcf /dev/stdin", LINE), ("enter r.fv -r cag.fa --vcf /dev/stdin --every 1", LINE))
    for line, given in commands:
        command = words(line)
        with Folder(FILES) as folder:
            expected = program.answer(command, FILES | {b"/dev/stdin": given})
            same(command, "through a pipe", run(starting, folder, command, given), Left(*expected[:3]))
            del expected.files[b"/dev/stdin"]
            compare_files(command, folder.files(), expected.files)
    return len(commands)


def failures(starting):
    if not Path("/proc/version").exists():
        raise SystemExit("commands: FAILED: there is no /proc, where nobody can write")
    return sum(tests(starting) for tests in (full_disk, folders_in_the_way, standard_output_full,
                                             standard_output_closed, nobody_can_write, links, modes, pipes))
