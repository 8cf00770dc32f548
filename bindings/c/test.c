/* Calls the library from C on every text of a folder and compares each report with the stored one and with the program's.
 *
 *     test VECTORS PRINTED      VECTORS/reports has NAME.in and its report NAME.out, VECTORS/opb also NAME.opb, the OPB text before NAME.in;
 *                               PRINTED has folders of the same names with what the program printed, NAME.out
 *
 * Tables of the right size and larger ones, dirty ones used again and again, and ones that are too small: what a call may change is
 * changed, and nothing else. A text that stands alone is also asked behind an empty OPB text, which has to change nothing.
 */
#include "cutting_planes.h"

#include <dirent.h>
#include <pthread.h>
#include <stdbool.h>
#include <stdio.h>
#include <stdlib.h>
#include <string.h>

enum {
    NODES = CUTTING_PLANES_NODE_WORDS,
    REPORT = CUTTING_PLANES_REPORT_BYTES,
    GUARD = 64,     /* words and bytes behind a table that are not lent */
    MORE = 1000,    /* how much larger the larger tables are */
    MOST = 1 << 20, /* the longest file of a folder */
    THREADS = 4,
    ROUNDS = 100,
    FEWEST = 200, /* vectors of either kind */
};
#define WORD 0xDEADBEEFu
#define BYTE 0xA7u

static int failures;
static size_t calls;

/* Counts a failure and says what failed. */
static void fail(const char *name, const char *what) {
    if (failures++ < 20) {
        printf("%s: %s\n", name, what);
    }
}

/* A buffer of bytes from a file; exits where there is none. */
static uint8_t *read_file(const char *folder, const char *name, const char *ending, size_t *length) {
    char path[4096];
    snprintf(path, sizeof path, "%s/%s%s", folder, name, ending);
    FILE *file = fopen(path, "rb");
    uint8_t *bytes = malloc(MOST);
    if (!file || !bytes) {
        printf("%s cannot be read\n", path);
        exit(2);
    }
    *length = fread(bytes, 1, MOST, file);
    fclose(file);
    return bytes;
}

/* Whether all words from `from` up to `to` are `word`. */
static bool words_are(const uint32_t *words, size_t from, size_t to, uint32_t word) {
    for (size_t at = from; at < to; at++) {
        if (words[at] != word) {
            return false;
        }
    }
    return true;
}

/* Whether all bytes from `from` up to `to` are `byte`. */
static bool bytes_are(const uint8_t *bytes, size_t from, size_t to, uint8_t byte) {
    for (size_t at = from; at < to; at++) {
        if (bytes[at] != byte) {
            return false;
        }
    }
    return true;
}

/* A text with its stored report; `alone` where no OPB text is stored with it, which is empty then. */
struct vector {
    char *name;
    bool alone;
    uint8_t *opb, *text, *report;
    size_t opb_length, text_length, report_length;
};

/* The function that takes an OPB text, or the other one. */
static size_t call(const struct vector *vector, bool behind, uint32_t *lent, size_t node_words, uint8_t *written, size_t report_bytes) {
    return behind
        ? cutting_planes_check_opb(vector->opb, vector->opb_length, vector->text, vector->text_length, lent, node_words, written, report_bytes)
        : cutting_planes_check(vector->text, vector->text_length, lent, node_words, written, report_bytes);
}

/* The tables, with guards behind what is lent. */
static uint32_t nodes[NODES + MORE + GUARD];
static uint8_t report[REPORT + MORE + GUARD];

/* One call on tables of these sizes; `clean` fills the node table first, else it is as the call before left it. */
static void check_call(const struct vector *vector, bool behind, size_t node_words, size_t report_bytes, bool clean, const char *what) {
    if (clean) {
        for (size_t at = 0; at < sizeof nodes / sizeof *nodes; at++) {
            nodes[at] = WORD;
        }
    }
    for (size_t at = node_words; at < node_words + GUARD; at++) {
        nodes[at] = WORD;
    }
    memset(report, BYTE, sizeof report);
    size_t length = call(vector, behind, nodes, node_words, report, report_bytes);
    if (length != vector->report_length || memcmp(report, vector->report, vector->report_length)) {
        fail(vector->name, what);
        return;
    }
    if (!bytes_are(report, length, sizeof report, BYTE)) {
        fail(vector->name, "a byte behind the report was changed");
    }
    if (!words_are(nodes, node_words, node_words + GUARD, WORD)) {
        fail(vector->name, "a word behind the node table was changed");
    }
}

/* One call with a table that is too small: 0, and nothing changed. */
static void check_too_small(const struct vector *vector, bool behind, size_t node_words, size_t report_bytes) {
    memset(report, BYTE, sizeof report);
    for (size_t at = 0; at < sizeof nodes / sizeof *nodes; at++) {
        nodes[at] = WORD;
    }
    if (call(vector, behind, nodes, node_words, report, report_bytes) != 0) {
        fail(vector->name, "a table that is too small was taken");
    }
    if (!bytes_are(report, 0, sizeof report, BYTE) || !words_are(nodes, 0, sizeof nodes / sizeof *nodes, WORD)) {
        fail(vector->name, "something was written although a table is too small");
    }
}

/* All that is tried on one text with one of the functions. */
static void check_function(const struct vector *vector, bool behind) {
    check_call(vector, behind, NODES, REPORT, false, "another report, with the tables as the call before left them");
    check_call(vector, behind, NODES, REPORT, true, "another report");
    check_call(vector, behind, NODES + MORE, REPORT + MORE, true, "another report in larger tables");
    check_call(vector, behind, NODES + 1, REPORT, false, "another report in a larger node table");
    check_call(vector, behind, NODES, REPORT + 1, false, "another report in a larger report");
    check_too_small(vector, behind, NODES - 1, REPORT);
    check_too_small(vector, behind, NODES, REPORT - 1);
    check_too_small(vector, behind, NODES - 1, REPORT - 1);
    check_too_small(vector, behind, 0, REPORT);
    check_too_small(vector, behind, NODES, 0);
    check_too_small(vector, behind, 0, 0);
    calls += 11;
}

/* All that is tried on one text. */
static void check_vector(const struct vector *vector) {
    uint8_t *opb = malloc(vector->opb_length + 1), *text = malloc(vector->text_length + 1);
    memcpy(opb, vector->opb, vector->opb_length);
    memcpy(text, vector->text, vector->text_length);
    check_function(vector, true);
    if (vector->alone) {
        check_function(vector, false);
    }
    if (memcmp(opb, vector->opb, vector->opb_length) || memcmp(text, vector->text, vector->text_length)) {
        fail(vector->name, "a text was changed");
    }
    free(opb);
    free(text);
}

static struct vector *vectors;
static size_t count;

/* The bytes of a file in a buffer that is no longer than they are, so that what stands behind them is not theirs. */
static uint8_t *read_exactly(const char *folder, const char *name, const char *ending, size_t *length) {
    uint8_t *bytes = read_file(folder, name, ending, length);
    return realloc(bytes, *length ? *length : 1);
}

/* Every text of VECTORS/kind with its report, which has to be what the program printed too. */
static void read_vectors(const char *all, const char *printed, const char *kind, bool alone) {
    char folder[2048], outputs[2048];
    snprintf(folder, sizeof folder, "%s/%s", all, kind);
    snprintf(outputs, sizeof outputs, "%s/%s", printed, kind);
    DIR *opened = opendir(folder);
    struct dirent *entry;
    if (!opened) {
        printf("%s cannot be read\n", folder);
        exit(2);
    }
    while ((entry = readdir(opened))) {
        size_t end = strlen(entry->d_name);
        if (end < 4 || strcmp(entry->d_name + end - 3, ".in")) {
            continue;
        }
        vectors = realloc(vectors, (count + 1) * sizeof *vectors);
        struct vector *vector = &vectors[count++];
        vector->name = strdup(entry->d_name);
        vector->name[end - 3] = 0;
        vector->alone = alone;
        vector->opb_length = 0;
        vector->opb = alone ? malloc(1) : read_exactly(folder, vector->name, ".opb", &vector->opb_length);
        vector->text = read_exactly(folder, vector->name, ".in", &vector->text_length);
        vector->report = read_exactly(folder, vector->name, ".out", &vector->report_length);
        size_t length;
        uint8_t *output = read_file(outputs, vector->name, ".out", &length);
        if (length != vector->report_length || memcmp(output, vector->report, length)) {
            fail(vector->name, "the program printed another report than the stored one");
        }
        free(output);
    }
    closedir(opened);
}

/* One report, written out here. */
static void check_report(const char *name, const char *opb, const char *text, const char *due) {
    struct vector vector = {
        (char *)name, false, (uint8_t *)opb, (uint8_t *)text, (uint8_t *)due, strlen(opb), strlen(text), strlen(due)};
    check_function(&vector, true);
}

/* A model, with a proof behind it and without, refused texts of both kinds, and texts that overlap. */
static void check_reports(void) {
    static const char MODEL[] = "* x1 and not x1\n+1 x1 >= 1 ;\n+1 ~x1 >= 1 ;\n";
    static const char COMMENT[] = "* (assume a (>= 0 1))";
    static const char PROOF[] = "(step s (cl (>= 0 1)) :rule cp_addition :premises (c1 c2))\n";
    check_report("a model", MODEL, "",
                 "id=c1 rule=assume answer=0 plain=yes holds=yes\nid=c2 rule=assume answer=0 plain=yes holds=yes\n"
                 "commands=2 refused=0 refuted=no\n");
    check_report("a model and a proof", MODEL, PROOF,
                 "id=c1 rule=assume answer=0 plain=yes holds=yes\nid=c2 rule=assume answer=0 plain=yes holds=yes\n"
                 "id=s rule=cp_addition answer=0 plain=yes holds=yes\ncommands=3 refused=0 refuted=yes\n");
    check_report("a proof without its model", "", PROOF, "refused=8 byte=51\n");
    check_report("an objective", "min: +1 x1 ;\n", PROOF, "refused=50 byte=0\n");
    check_report("a model without an end", "+1 x1 >= 1", "(", "refused=51 byte=10\n");
    check_report("texts that overlap", COMMENT, COMMENT + 2,
                 "id=a rule=assume answer=0 plain=yes holds=yes\ncommands=1 refused=0 refuted=yes\n");
}

/* A thread with tables of its own, over all texts from a place of its own on. */
static void *in_a_thread(void *place) {
    uint32_t *own_nodes = malloc(NODES * sizeof *own_nodes);
    uint8_t *own_report = malloc(REPORT);
    size_t wrong = 0;
    for (size_t round = 0; round < ROUNDS; round++) {
        const struct vector *vector = &vectors[((size_t)place * 31 + round * 7) % count];
        size_t length = call(vector, !vector->alone || round % 2, own_nodes, NODES, own_report, REPORT);
        wrong += length != vector->report_length || memcmp(own_report, vector->report, length);
    }
    free(own_nodes);
    free(own_report);
    return (void *)wrong;
}

/* Several threads at once. */
static void check_threads(void) {
    pthread_t threads[THREADS];
    for (size_t place = 0; place < THREADS; place++) {
        if (pthread_create(&threads[place], NULL, in_a_thread, (void *)place)) {
            fail("threads", "a thread could not be made");
            return;
        }
    }
    for (size_t place = 0; place < THREADS; place++) {
        void *wrong;
        pthread_join(threads[place], &wrong);
        if (wrong) {
            fail("threads", "another report where several threads call at once");
        }
    }
}

int main(int words, char **arguments) {
    if (words != 3) {
        printf("usage: test VECTORS PRINTED\n");
        return 2;
    }
    read_vectors(arguments[1], arguments[2], "reports", true);
    size_t alone = count;
    read_vectors(arguments[1], arguments[2], "opb", false);
    for (size_t at = 0; at < count; at++) {
        check_vector(&vectors[at]);
    }
    check_reports();
    if (count) {
        check_threads();
    }
    printf("C: %zu texts, %zu behind OPB texts, %zu calls, %d failures\n", alone, count - alone, calls + THREADS * ROUNDS, failures);
    return failures || alone < FEWEST || count - alone < FEWEST;
}
