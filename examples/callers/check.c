/* Checks a proof in two files, which are mapped and not copied. usage: check FORMULA TRACE
   It prints the line, and for a refusal what the fault means. The status is the program's; 3 if a file cannot be mapped. */
#include <fcntl.h>
#include <qrp_check.h>
#include <stdio.h>
#include <sys/mman.h>
#include <sys/stat.h>
#include <unistd.h>

static const void *map(const char *path, size_t *length) {
    struct stat file;
    int opened = open(path, O_RDONLY);
    if (opened < 0)
        return NULL;
    if (fstat(opened, &file) != 0) {
        close(opened);
        return NULL;
    }
    *length = (size_t)file.st_size;
    const void *text = *length == 0 ? "" : mmap(NULL, *length, PROT_READ, MAP_PRIVATE, opened, 0);
    close(opened);
    return text == MAP_FAILED ? NULL : text;
}

int main(int count, char **words) {
    size_t formula_length = 0, trace_length = 0;
    if (count != 3) {
        fputs("usage: check FORMULA TRACE\n", stderr);
        return 5;
    }
    const void *formula = map(words[1], &formula_length), *trace = map(words[2], &trace_length);
    if (formula == NULL || trace == NULL) {
        perror(formula == NULL ? words[1] : words[2]);
        return 3;
    }
    struct qrp_verdict verdict;
    char line[QRP_LINE_ROOM], meaning[QRP_FAULT_ROOM];
    int status = qrp_verify(formula, formula_length, trace, trace_length, false, &verdict);
    qrp_verdict_line(&verdict, line, sizeof line);
    fputs(line, stdout);
    if (qrp_fault_text(&verdict, meaning, sizeof meaning) > 0)
        fprintf(stderr, "%s\n", meaning);
    return status;
}
