"""Prints what examples/vcf.c has to print."""
import model
import register
import vcf
from shown import sides

REPEAT = b"TCAGCAGCAGT"
DIGEST = model.digest(REPEAT)
LINES = (
    b"chr1\t4\t.\tG\tGCAG,T\t50\tPASS\tDP=31\tGT\t1/2",
    b"chr1\t1\t.\tt\ttcag\t48\tPASS\tDP=28\tGT\t0/1",
    b"chr1\t10\t.\tGT\tGCAGT,<DEL>,*\t50\tPASS\tDP=30\tGT\t1/3",
    b"chr1\t1\t.\tTCAG\tT,tcag\t44\tPASS\tDP=19\tGT\t1/2",
    b"chr1\t4\t.\tG\t.\t.\tPASS\tDP=33\tGT\t0/0",
    b"chr1\t5\t.\tA\tG\t12\tq20\tDP=7\tGT\t0/1",
)


def blank():
    unwritten = bytes(register.Register(5, 10, 100, len(REPEAT), DIGEST).size())
    *_, image = register.blank(unwritten, len(REPEAT), DIGEST, 5, 10, 100)
    return image


def taken(image, line, alternate):
    """What is said of an alternate, and the image after it. It is entered as the line gives it."""
    refusal, value, allele = vcf.allele(REPEAT, line, alternate)
    if refusal == 0:
        refusal, value, found, number, *moved, image = register.entry(image, DIGEST, REPEAT, *allele)
    if refusal != 0:
        return f"refused {refusal}, {value}", image
    normal = model.form(REPEAT, *allele)
    return (f"{register.FOUND[found]}, number {number}, {normal.start} to {normal.end}, {normal.replacement.decode()}"
            + sides(*moved), image)


def main():
    image = blank()
    for line in LINES:
        print(line.decode())
        refusal, value, places = vcf.count(REPEAT, line)
        if refusal != 0:
            print(f"  refused {refusal}, {value}")
        for alternate in range(1, places + 1):
            said, image = taken(image, line, alternate)
            print(f"  {alternate}: {said}")


main()
