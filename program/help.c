/*
 * The pages of --help: one for all, and one for each command, with an example.
 */
#include "program.h"

#include <string.h>

static const char all[] =
    "fearnavult: an allele register for a laboratory. An allele is brought to its normal form and has one number,\n"
    "however it was typed.\n"
    "\n"
    "fearnavult blank REGISTER -r REF.fa        make a register of a reference\n"
    "fearnavult enter REGISTER -r REF.fa ...    enter an allele, or the alleles of a VCF file\n"
    "fearnavult withdraw REGISTER NUMBER        make a number inactive\n"
    "fearnavult undo REGISTER                   take the latest change back\n"
    "fearnavult seal REGISTER                   make all changes final, and free the journal\n"
    "fearnavult list REGISTER                   all numbers\n"
    "fearnavult show REGISTER NUMBER            one number, with a picture where -r is given\n"
    "fearnavult form -r REF.fa ...              the normal form of an allele or of a VCF file's, without a register\n"
    "fearnavult identify -r REF.fa ...          the GA4GH identifiers of an allele\n"
    "fearnavult check REGISTER                  whether a register is well formed\n"
    "fearnavult COMMAND --help                  how a command is used\n"
    "fearnavult --version\n"
    "\n"
    "An allele is START END REPLACEMENT: the residues between two positions, and what stands there instead. Positions\n"
    "lie between residues: 0 before the first, their number after the last. The replacement . is the empty one.\n"
    "Residues are A to Z, * (a stop, which a shell wants in quotes) and - (a gap).\n"
    "\n"
    "-r, --reference FILE   FASTA; --name SEQ chooses one of several sequences\n"
    "--tsv                  cells in full, parted by tabs\n"
    "--                     what follows is no option: before an allele whose replacement begins with a gap\n"
    "\n"
    "Status 0: accepted; 1: refused; 2: used wrongly, or a file can't be read or written.\n";

static const struct {
    const char *command, *page;
} pages[] = {
    {"blank",
     "fearnavult blank REGISTER -r REF.fa [--name SEQ] [--records N] [--journal N] [--pool N] [--force] [--tsv]\n"
     "\n"
     "Makes the file REGISTER: a register without numbers, of one reference.\n"
     "\n"
     "--records N   how many numbers it can issue: at most, and unless told, 10000\n"
     "--journal N   how many changes it can take back: at most, and unless told, 10000\n"
     "--pool N      how many residues its replacements can have together: at most 10000000, unless told 1000000\n"
     "--force       over a register that is there; it is lost. No other file is written over\n"
     "\n"
     "    fearnavult blank panel.fv -r panel.fa --name chr7\n"},
    {"enter",
     "fearnavult enter REGISTER -r REF.fa [--name SEQ] [--tsv] [--] START END REPLACEMENT\n"
     "fearnavult enter REGISTER -r REF.fa [--name SEQ] --vcf CALLS.vcf|- [--every N] [--tsv]\n"
     "\n"
     "Enters an allele, or each alternate of each line of a VCF file (- is standard input), in its normal form.\n"
     "The answer is new (the next number is issued), again (an inactive number is active again) or known. left and\n"
     "right tell how far the interval moved: +3 widened, -1 shrunk. The register is saved before this is printed.\n"
     "\n"
     "--every N   save after every N lines and print their rows then, not only at the end\n"
     "\n"
     "    fearnavult enter panel.fv -r panel.fa 4 4 CAG\n"
     "    fearnavult enter protein.fv -r protein.fa 39 40 '*'\n"
     "    fearnavult enter panel.fv -r panel.fa --vcf calls.vcf\n"},
    {"withdraw",
     "fearnavult withdraw REGISTER NUMBER [--tsv]\n"
     "\n"
     "Makes an active number inactive. Its allele keeps it: entered again, it is active again.\n"
     "\n"
     "    fearnavult withdraw panel.fv 3\n"},
    {"undo",
     "fearnavult undo REGISTER [--tsv]\n"
     "\n"
     "Takes the latest change back, an entry or a withdrawal, and shows its number as it now stands. A number once\n"
     "issued stays its allele's. After a seal there is nothing to undo.\n"
     "\n"
     "    fearnavult undo panel.fv\n"},
    {"seal",
     "fearnavult seal REGISTER [--tsv]\n"
     "\n"
     "Makes all changes so far final, which frees the journal for others.\n"
     "\n"
     "    fearnavult seal panel.fv\n"},
    {"list",
     "fearnavult list REGISTER [-r REF.fa [--name SEQ]] [--tsv]\n"
     "\n"
     "Prints all numbers, active or not, with their alleles; with the reference also their GA4GH identifiers.\n"
     "\n"
     "    fearnavult list panel.fv -r panel.fa\n"},
    {"show",
     "fearnavult show REGISTER NUMBER [-r REF.fa [--name SEQ]] [--tsv]\n"
     "\n"
     "Prints one number; with the reference also its GA4GH identifier and, without --tsv, a picture.\n"
     "\n"
     "    fearnavult show panel.fv 3 -r panel.fa\n"},
    {"form",
     "fearnavult form -r REF.fa [--name SEQ] [--tsv] [--] START END REPLACEMENT\n"
     "fearnavult form -r REF.fa [--name SEQ] --vcf CALLS.vcf|- [--tsv]\n"
     "\n"
     "Prints the normal form of an allele, with a picture, or of each alternate of each line of a VCF file (- is\n"
     "standard input). left and right tell how far the interval moved: +3 widened, -1 shrunk.\n"
     "\n"
     "    fearnavult form -r panel.fa 4 4 CAG\n"
     "    fearnavult form -r panel.fa --vcf calls.vcf --tsv\n"},
    {"identify",
     "fearnavult identify -r REF.fa [--name SEQ] [--tsv] [--] START END REPLACEMENT\n"
     "\n"
     "Prints the GA4GH identifiers of the sequence, of the normal form's location, and of the allele.\n"
     "\n"
     "    fearnavult identify -r panel.fa 4 4 CAG\n"},
    {"check",
     "fearnavult check REGISTER [--tsv]\n"
     "\n"
     "Tests whether a register is well formed, and counts its numbers and those that are active.\n"
     "\n"
     "    fearnavult check panel.fv\n"},
};

const char *help_page(const char *command) {
    size_t i = 0, count = sizeof pages / sizeof *pages;
    while (command != NULL && i < count && strcmp(command, pages[i].command) != 0) i++;
    return command == NULL || i == count ? all : pages[i].page;
}
