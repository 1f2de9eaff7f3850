/* The program cutplan: arguments, words for a refusal and the exit status, over the proved function that does the work.
 * That one reads a job from standard input, writes its listing to standard output, hands over the number of the refusal
 * that the listing says, 0 for a plan, and answers 0, or 1 on a write error. */
#include "../include/buchawzer.h"

#include <stdio.h>
#include <string.h>

int32_t buchawzer_cutplan_program(uint32_t *refused);

static const char usage[] =
    "usage: cutplan < JOB > LISTING\n"
    "Reads one job from standard input and writes its listing, a plan or `refused` with a number, to standard output.\n"
    "No bytes are an empty recording, `plan 0 0`: look at the status of the command that makes the job, as by && or pipefail.\n"
    "What a refusal means goes to standard error. tools/job makes a job from numbers, and README.md has its bytes.\n"
    "Status 0: the listing was written, a refusal too; 1: it could not be written; 2: an argument that is not -h or --help.\n";

static int unwritten(void)
{
    fputs("cutplan: standard output could not be written\n", stderr);
    return 1;
}

/* What the program does where it is given an argument, which is not repeated: it may hold anything. */
static int used(const char *argument)
{
    if (strcmp(argument, "--help") == 0 || strcmp(argument, "-h") == 0) {
        return fputs(usage, stdout) == EOF || fflush(stdout) == EOF ? unwritten() : 0;
    }
    fprintf(stderr, "cutplan: it takes a job on standard input, and no argument but -h or --help\n%s", usage);
    return 2;
}

int main(int argc, char **argv)
{
    if (argc > 1) {
        return used(argv[1]);
    }
    uint32_t refused = 0;
    int32_t status = buchawzer_cutplan_program(&refused);
    if (refused != 0) {
        const char *meaning = buchawzer_refusal_meaning(refused);
        fprintf(stderr, "cutplan: refused %u: %s; %s\n", (unsigned)refused, meaning, buchawzer_refusal_advice(refused));
    }
    return status != 0 ? unwritten() : 0;
}
