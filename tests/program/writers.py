"""Several programs on one register: a second writer is told so, readers go on, and of many at once none undoes what
another did.
"""
import subprocess
import threading
from contextlib import contextmanager

import program
import register
from cases import CAG, LINE, SMALL, image_of, some_register
from started import PATIENCE, Folder, Left, compared, run, same, script, words

FILES = {b"cag.fa": CAG, b"a.vcf": LINE, b"r.fv": image_of(some_register()), b"s.fv": image_of(some_register())}
HELD = words("enter r.fv -r cag.fa --vcf - --every 1 --tsv")
FIRST, REST = b"chr1\t1\t.\tT\tA\n", b"chr1\t1\t.\tT\tC\n" + LINE
WRITERS = f"""
    blank REGISTER -r cag.fa {SMALL} --force
    enter REGISTER -r cag.fa 2 3 C
    enter REGISTER -r cag.fa 4 4 CAG
    enter REGISTER -r cag.fa --vcf a.vcf
    withdraw REGISTER 1
    undo REGISTER
    seal REGISTER
"""
READERS = script("""
    list r.fv
    list r.fv -r cag.fa --tsv
    show r.fv 3 -r cag.fa
    check r.fv
    form -r cag.fa 4 4 CAG
    list link.fv
""")
ROUNDS, AT_ONCE = 4, 8


@contextmanager
def holding(starting, folder):
    """A writer that has saved its first line and waits for more, and what it has printed."""
    process = subprocess.Popen([*starting, *HELD], cwd=folder.path, stdin=subprocess.PIPE, stdout=subprocess.PIPE,
                               stderr=subprocess.PIPE)
    patience = threading.Timer(PATIENCE, process.kill)
    patience.start()
    try:
        process.stdin.write(FIRST)
        process.stdin.flush()
        yield process, process.stdout.readline() + process.stdout.readline()
    finally:
        patience.cancel()
        process.kill()
        process.wait(PATIENCE)


def check_barred(starting, folder):
    """Every other writer is told, by whatever name it knows the register, and changes nothing."""
    before = folder.files()
    commands = [command for name in ("r.fv", "link.fv") for command in script(WRITERS.replace("REGISTER", name))]
    for command in commands:
        said = b"fearnavult: " + command[1] + b": another fearnavult is changing it\n"
        same(command, "beside another writer", run(starting, folder, command), Left(2, b"", said))
        same(command, "the folder's files", folder.files(), before)
    return len(commands)


def held(starting):
    """One writer is in the middle of its work; then it ends, and the next has its turn."""
    with Folder(FILES) as folder, holding(starting, folder) as (process, out):
        folder.at("link.fv").symlink_to("r.fv")
        begun = program.answer(HELD, FILES, FIRST)
        same(HELD, "the first row", out, begun.out)
        same(HELD, "the first save", folder.at("r.fv").read_bytes(), begun.files[b"r.fv"])
        count = check_barred(starting, folder)
        for command in (*READERS, *script(WRITERS.replace("REGISTER", "s.fv"))):
            compared(starting, folder, command)
            count += 1
        rest, said = process.communicate(REST, PATIENCE)
        ended = program.answer(HELD, FILES, FIRST + REST)
        same(HELD, "after it went on", Left(process.returncode, out + rest, said), Left(*ended[:3]))
        same(HELD, "the last save", folder.at("r.fv").read_bytes(), ended.files[b"r.fv"])
        folder.at("link.fv").unlink()
        compared(starting, folder, words("withdraw r.fv 3"))
    return count + 2


def killed(starting):
    """A writer that is killed leaves a lock's file, but no lock."""
    with Folder(FILES) as folder:
        with holding(starting, folder):
            pass
        compared(starting, folder, words("withdraw r.fv 3"))
        compared(starting, folder, words("undo r.fv"))
    return 3


def together(starting, folder, given):
    """Starts a writer for each allele at once; answers which of them the register has taken."""
    processes = [(allele, subprocess.Popen([*starting, *words(f"enter r.fv -r cag.fa --tsv {allele}")], cwd=folder.path,
                                           stdout=subprocess.PIPE, stderr=subprocess.PIPE)) for allele in given]
    taken = {}
    for allele, process in processes:
        out, said = process.communicate(timeout=PATIENCE)
        if process.returncode == 0:
            taken[allele] = int(out.splitlines()[1].split(b"\t")[1])
        else:
            same(words(f"enter r.fv ... {allele}"), "at once with others", (process.returncode, out, said),
                 (2, b"", b"fearnavult: r.fv: another fearnavult is changing it\n"))
    return taken


def at_once(starting):
    """Whoever is told that its allele has a number finds it there, however many were at it."""
    tried = 0
    for _ in range(ROUNDS):
        with Folder({b"cag.fa": CAG}) as folder:
            compared(starting, folder, words(f"blank r.fv -r cag.fa --records {AT_ONCE}"))
            waiting, numbers = [f"11 11 {'A' * k}C" for k in range(AT_ONCE)], {}
            while waiting:
                tried += len(waiting)
                numbers |= together(starting, folder, waiting)
                waiting = [allele for allele in waiting if allele not in numbers]
            issued = register.read(folder.at("r.fv").read_bytes()).issued
            found = {f"11 11 {record.replacement.decode()}": number for number, record in enumerate(issued, 1)}
            same(words("list r.fv"), "the numbers", numbers, found)
    return tried


def writers(starting):
    return held(starting) + killed(starting) + at_once(starting)
