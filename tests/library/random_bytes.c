/* Calls the library on seeded random and damaged texts, with nothing but forbidden memory around each table that it is lent. Every third text or
 * so is a pair, an OPB text with a proof text behind it; the others stand alone.
 *
 *     random_bytes pages SEED COUNT VECTORS [SAMPLES EVERY]
 *     random_bytes heap SEED COUNT VECTORS
 *
 * VECTORS has the folders reports, with texts NAME.in, and opb, with pairs NAME.opb and NAME.in.
 *
 * pages: the texts and the two tables lie between pages that can be neither read nor written, the texts and tables that are too small cannot
 *        be written either, and each text is asked several times: with clean tables, with dirty ones, and with those of the call before; one
 *        that stands alone also behind an empty OPB text, which has to change nothing. Every EVERYth goes to the file SAMPLES: OPB text
 *        (empty where there is none), proof text and report, each behind its length in four bytes.
 * heap:  each text is asked once, with tables fresh from malloc that nobody wrote to: for valgrind and for the sanitizers.
 *
 * The last line has the number of texts and a hash over all reports, which is the same for both ways. The exit status is 0 where nothing
 * was wrong.
 */
#include "cutting_planes.h"

#include <dirent.h>
#include <fcntl.h>
#include <signal.h>
#include <stdbool.h>
#include <stdio.h>
#include <stdlib.h>
#include <string.h>
#include <sys/mman.h>
#include <unistd.h>

enum {
    NODES = CUTTING_PLANES_NODE_WORDS,
    REPORT = CUTTING_PLANES_REPORT_BYTES,
    NODE_BYTES = NODES * 4,
    PAGE = 4096,
    TEXT_ROOM = 24 * PAGE, /* the longest text that is tried */
    LONG_VECTOR = 2000,    /* longer vectors are taken seldom */
};
#define BYTE 0xA7u

/* ---------------------------------------------------------------- seeded numbers */

static uint64_t state;

/* The next number (splitmix64). */
static uint64_t next(void) {
    uint64_t z = (state += 0x9E3779B97F4A7C15u);
    z = (z ^ (z >> 30)) * 0xBF58476D1CE4E5B9u;
    z = (z ^ (z >> 27)) * 0x94D049BB133111EBu;
    return z ^ (z >> 31);
}

/* A number below `bound`. */
static size_t below(size_t bound) {
    return bound ? next() % bound : 0;
}

/* ---------------------------------------------------------------- texts */

/* A text that is being made. */
struct text {
    uint8_t bytes[2 * TEXT_ROOM];
    size_t length;
};
static struct text opb, proof;

/* Whether the OPB text stands before the proof text; else that one stands alone. */
static bool behind;

/* The stored texts of one kind. */
struct vectors {
    size_t count;
    struct {
        uint8_t *bytes;
        size_t length;
    } at[4096];
};
static struct vectors alone, models, proofs; /* a model and its proof have the same place */

/* Whether a file's name ends with .in. */
static int is_text(const struct dirent *entry) {
    size_t end = strlen(entry->d_name);
    return end > 3 && !strcmp(entry->d_name + end - 3, ".in");
}

/* Adds the file with this name, its ending taken off and another one put there. */
static void read_vector(struct vectors *vectors, const char *folder, const char *name, const char *ending) {
    char path[4096];
    snprintf(path, sizeof path, "%s/%.*s%s", folder, (int)(strlen(name) - 3), name, ending);
    FILE *file = fopen(path, "rb");
    if (!file) {
        printf("%s cannot be read\n", path);
        exit(2);
    }
    size_t length = fread(proof.bytes, 1, TEXT_ROOM, file);
    vectors->at[vectors->count].length = length;
    vectors->at[vectors->count].bytes = malloc(length + 1);
    memcpy(vectors->at[vectors->count].bytes, proof.bytes, length);
    vectors->count++;
    fclose(file);
}

/* Every text of a folder, in the order of their names, and the OPB texts before them. */
static void read_vectors(const char *all, const char *kind, struct vectors *texts, struct vectors *before) {
    char folder[2048];
    snprintf(folder, sizeof folder, "%s/%s", all, kind);
    struct dirent **entries;
    int found = scandir(folder, &entries, is_text, alphasort);
    for (int at = 0; at < found; at++) {
        if (texts->count < 4096) {
            read_vector(texts, folder, entries[at]->d_name, ".in");
            if (before) {
                read_vector(before, folder, entries[at]->d_name, ".opb");
            }
        }
        free(entries[at]);
    }
    if (found > 0) {
        free(entries);
    }
    if (texts->count < 100) {
        printf("%s has only %zu texts\n", folder, texts->count);
        exit(2);
    }
}

/* The place of a vector, a long one seldom. */
static size_t some_vector(const struct vectors *vectors) {
    size_t at = below(vectors->count);
    while (vectors->at[at].length > LONG_VECTOR && below(30)) {
        at = below(vectors->count);
    }
    return at;
}

/* Puts bytes into a text at a place, as far as there is room. */
static void insert(struct text *text, size_t at, const void *bytes, size_t count) {
    if (text->length + count > TEXT_ROOM) {
        return;
    }
    static uint8_t copy[TEXT_ROOM];
    memcpy(copy, bytes, count);
    memmove(text->bytes + at + count, text->bytes + at, text->length - at);
    memcpy(text->bytes + at, copy, count);
    text->length += count;
}

/* Takes bytes out of a text. */
static void erase(struct text *text, size_t at, size_t count) {
    memmove(text->bytes + at, text->bytes + at + count, text->length - at - count);
    text->length -= count;
}

static const char *const PROOF_TOKENS[] = {
    "(", ")", "(", ")", " ", "\n", "(assume a ", "(assume b ", "(step t ", "(cl ", "(cl) ", ":rule ", ":premises (a)",
    ":premises (a b)", ":args (1)", ":args (x)", "(>= ", "(> ", "(<= ",
    "(< ", "(= ", "(and ", "(+ ", "(- ", "(- 1 x)", "(* 1 x)", "(* 2 (- 1 x))", "(* -3 y)", "x", "y", "z", "0", "1", "-1", "2",
    "99999999", "100000000", "-0", "007", "cp_addition",
    "cp_multiplication", "cp_division", "cp_saturation", "cp_literal", "cp_normalize", "cp_transfer", "cp_part", "(>= 0 1)",
    "(>= (* 1 x) 1)", "(>= (* 1 (- 1 x)) 1)", ";", ":x", "\t", "\r",
    "aaaaaaaaaaaaaaaaaaaaaaaaaaaaaaaa", "aaaaaaaaaaaaaaaaaaaaaaaaaaaaaaaaa", "cl", "step", "assume", "and",
    "c1", "c2", ":premises (c1)", ":premises (c1 c2)", "(* 1 x1)", "(* 1 (- 1 x1))", NULL};

static const char *const OPB_TOKENS[] = {
    " ", "\n", " ;\n", " ;\n", ";", ">= ", ">= ", "= ", ">= 1 ;\n", ">= +1 ;\n", "= -2 ;\n", "= 0;", "+1 x1 ", "-2 ~x2 ", "3 x1 ", "+4 ~x1 ",
    "1 x2 >= 1 ;\n", "1 x1 +1 ~x1 = 1 ;\n", "x1", "~x1", "x07", "x", "0", "+0", "-0", "007", "+1", "-1", "99999999", "+100000000", "min: ", "max: ",
    "\n* a comment\n", "*", "(", ")", "~", "+", "-", "<=", ">=1", "y1", "\t", "\r", "x1234567890123456789012345678901", "x12345678901234567890123456789012",
    NULL};

/* How a kind of texts is made and damaged. */
struct language {
    const char *const *tokens;
    const char *alphabet;
    const char *marks; /* bytes that may go */
    const char *signs; /* bytes that may become each other */
    const struct vectors *stored;
};
static const struct language ALONE = {PROOF_TOKENS, "()()()   \n+-*>=<=0123456789axyzclstep:_@.", "()", "xyz", &alone};
static const struct language BEHIND = {PROOF_TOKENS, "()()()   \n+-*>=<=0123456789axyzclstep:_@.", "()", "12", &proofs};
static const struct language OPB = {OPB_TOKENS, "   ;;\n+-~*>==0123456789xxx()m:", ";~*", "+-", &models};

/* One of the language's tokens. */
static const char *some_token(const struct language *language) {
    size_t count = 0;
    while (language->tokens[count]) {
        count++;
    }
    return language->tokens[below(count)];
}

/* A place of the text that has one of these bytes, looked for some forty times; the text's length where none was found. */
static size_t some_place(const struct text *text, const char *bytes) {
    for (size_t tries = 0; tries < 40; tries++) {
        size_t at = below(text->length + 1);
        if (at < text->length && text->bytes[at] && strchr(bytes, text->bytes[at])) {
            return at;
        }
    }
    return text->length;
}

/* One random change of a text. */
static void damage(struct text *text, const struct language *language) {
    size_t at = below(text->length + 1), count = below(below(4) ? 12 : 400);
    if (count > text->length - at) {
        count = text->length - at;
    }
    const char *token = some_token(language);
    size_t other = some_vector(language->stored), whole = language->stored->at[other].length;
    size_t from = below(whole + 1), to = from + below(whole - from + 1);
    switch (below(14)) {
    case 0: /* a flipped bit */
        if (at < text->length) {
            text->bytes[at] ^= (uint8_t)(1u << below(8));
        }
        break;
    case 1: /* another byte */
        if (at < text->length) {
            text->bytes[at] = (uint8_t)next();
        }
        break;
    case 2:
        erase(text, at, count);
        break;
    case 3: /* a part twice */
        insert(text, at, text->bytes + at, count);
        break;
    case 4:
        text->length = at;
        break;
    case 5: /* a part of another text */
        insert(text, at, language->stored->at[other].bytes + from, to - from);
        break;
    case 6:
        insert(text, at, token, strlen(token));
        break;
    case 7: /* a digit of a numeral or of a name */
    case 10:
    case 11:
        at = some_place(text, "0123456789");
        if (at < text->length) {
            text->bytes[at] = (uint8_t)('0' + below(10));
        }
        break;
    case 8: /* a bracket goes, or a semicolon */
        at = some_place(text, language->marks);
        if (at < text->length) {
            erase(text, at, 1);
        }
        break;
    case 9: /* another variable, or another sign */
    case 12:
        at = some_place(text, language->signs);
        if (at < text->length) {
            text->bytes[at] = (uint8_t)language->signs[below(strlen(language->signs))];
        }
        break;
    default: /* a blank */
        insert(text, at, " \n\t\r" + below(4), 1);
    }
}

/* A text: raw bytes, bytes of the grammar, its tokens, or a damaged copy of a vector. */
static void make_text(struct text *text, const struct language *language) {
    size_t kind = below(20), room = below(100) ? (below(4) ? 40 : 600) : 34000;
    text->length = 0;
    if (kind < 2) {
        for (; text->length < room && below(room); text->length++) {
            text->bytes[text->length] = (uint8_t)next();
        }
    } else if (kind < 4) {
        for (; text->length < room && below(room); text->length++) {
            text->bytes[text->length] = (uint8_t)language->alphabet[below(strlen(language->alphabet))];
        }
    } else if (kind < 7) {
        for (size_t words = below(room / 4); words; words--) {
            const char *token = some_token(language);
            insert(text, text->length, token, strlen(token));
        }
    } else {
        size_t at = some_vector(language->stored);
        insert(text, 0, language->stored->at[at].bytes, language->stored->at[at].length);
        for (size_t changes = below(5); changes; changes--) {
            damage(text, language);
        }
    }
}

/* The next text, or the next pair: two texts that have nothing to do with each other, or a stored pair with changes in either. */
static void make_texts(void) {
    behind = below(3) == 0;
    opb.length = proof.length = 0;
    if (!behind) {
        make_text(&proof, &ALONE);
    } else if (below(3) == 0) {
        make_text(&opb, &OPB);
        make_text(&proof, &BEHIND);
    } else {
        size_t at = some_vector(&models);
        insert(&opb, 0, models.at[at].bytes, models.at[at].length);
        insert(&proof, 0, proofs.at[at].bytes, proofs.at[at].length);
        for (size_t changes = below(5); changes; changes--) {
            if (below(2)) {
                damage(&opb, &OPB);
            } else {
                damage(&proof, &BEHIND);
            }
        }
    }
}

/* ---------------------------------------------------------------- failures */

static size_t place;

/* Prints the first bytes of a text. */
static void show(const char *name, const struct text *text) {
    printf("%s has %zu bytes: ", name, text->length);
    for (size_t at = 0; at < text->length && at < 400; at++) {
        uint8_t byte = text->bytes[at];
        printf(byte >= 32 && byte < 127 && byte != '\\' ? "%c" : "\\x%02x", byte);
    }
    printf("\n");
}

/* Says what is wrong with which text, and ends. */
static void fail(const char *what) {
    printf("text %zu: %s\n", place, what);
    if (behind) {
        show("the OPB text", &opb);
    }
    show("the text", &proof);
    fflush(stdout);
    _exit(1);
}

/* The library touched forbidden memory. */
static void on_fault(int number) {
    fail(number == SIGSEGV || number == SIGBUS ? "forbidden memory was read or written" : "a signal came");
}

/* ---------------------------------------------------------------- tables between forbidden pages */

/* Pages with a forbidden one before and behind them. */
static uint8_t *guarded(size_t bytes) {
    uint8_t *all = mmap(NULL, bytes + 2 * PAGE, PROT_NONE, MAP_PRIVATE | MAP_ANONYMOUS, -1, 0);
    if (all == MAP_FAILED || mprotect(all + PAGE, bytes, PROT_READ | PROT_WRITE)) {
        printf("no memory\n");
        exit(2);
    }
    return all + PAGE;
}

static uint8_t *opb_pages, *text_pages, *report_pages, *fixed_report, untouched[REPORT], expected[REPORT];
static uint32_t *node_pages, *fixed_nodes;

/* The function that takes an OPB text, or the other one. */
static size_t call(const uint8_t *before, const uint8_t *text, uint32_t *nodes, size_t words, uint8_t *report, size_t bytes) {
    return behind ? cutting_planes_check_opb(before, opb.length, text, proof.length, nodes, words, report, bytes)
                  : cutting_planes_check(text, proof.length, nodes, words, report, bytes);
}

/* The pages of a run. */
static void make_pages(void) {
    struct sigaction action = {.sa_handler = on_fault, .sa_flags = SA_ONSTACK};
    stack_t stack = {.ss_sp = malloc(1 << 16), .ss_size = 1 << 16};
    sigaltstack(&stack, NULL);
    sigaction(SIGSEGV, &action, NULL);
    sigaction(SIGBUS, &action, NULL);
    sigaction(SIGABRT, &action, NULL);
    sigaction(SIGILL, &action, NULL);
    sigaction(SIGFPE, &action, NULL);
    opb_pages = guarded(TEXT_ROOM);
    text_pages = guarded(TEXT_ROOM);
    report_pages = guarded(REPORT);
    node_pages = (uint32_t *)guarded(NODE_BYTES);
    fixed_report = guarded(REPORT);
    fixed_nodes = (uint32_t *)guarded(NODE_BYTES);
    mprotect(fixed_report, REPORT, PROT_READ);
    mprotect(fixed_nodes, NODE_BYTES, PROT_READ);
    memset(report_pages, BYTE, REPORT);
    memset(untouched, BYTE, REPORT);
}

/* One call on the guarded tables, whose report bytes are all BYTE before and after. */
static size_t guarded_call(const uint8_t *before, const uint8_t *text) {
    size_t written = call(before, text, node_pages, NODES, report_pages, REPORT);
    if (written < 1 || written > REPORT) {
        fail("the length is 0 or more than the report has");
    }
    if (memcmp(report_pages + written, untouched + written, REPORT - written)) {
        fail("a byte behind the report was changed");
    }
    return written;
}

/* Calls with a table that is too small: both tables are read-only, and end right before a forbidden page. */
static void too_small_calls(const uint8_t *before, const uint8_t *text) {
    size_t words = place % 3 == 1 ? below(NODES) : NODES - 1, bytes = place % 3 == 2 ? below(REPORT) : REPORT - 1;
    size_t results = call(before, text, fixed_nodes + NODES - words, words, fixed_report, REPORT)
        + call(before, text, fixed_nodes, NODES, fixed_report + REPORT - bytes, bytes)
        + call(before, text, fixed_nodes + NODES - words, words, fixed_report + REPORT - bytes, bytes);
    if (results) {
        fail("a table that is too small was taken");
    }
}

/* Puts a text into pages, at their front or at their end, so that forbidden memory is next to it. */
static const uint8_t *lend(uint8_t *pages, const struct text *text, bool front) {
    uint8_t *lent = front ? pages : pages + TEXT_ROOM - text->length;
    memcpy(lent, text->bytes, text->length);
    mprotect(pages, TEXT_ROOM, PROT_READ);
    return lent;
}

/* Another call, whose report has to be the same. */
static void ask_again(const uint8_t *before, const uint8_t *text, size_t due, const char *what) {
    size_t found = guarded_call(before, text);
    if (found != due || memcmp(report_pages, expected, due)) {
        fail(what);
    }
    memset(report_pages, BYTE, due);
}

/* Dirty nodes: any words, or one word everywhere, or the bytes of the text. */
static void dirty_nodes(void) {
    uint32_t word = (uint32_t)next();
    for (size_t at = 0; at < NODES; at++) {
        node_pages[at] = place % 2 ? word : word * (uint32_t)at;
    }
    if (place % 3 == 0 && proof.length <= NODE_BYTES) {
        memcpy(node_pages, proof.bytes, proof.length);
    }
}

/* All that is asked of one text between pages; the report is in `expected` then. */
static size_t ask_between_pages(void) {
    const uint8_t *before = lend(opb_pages, &opb, place % 4 / 2), *text = lend(text_pages, &proof, place % 2);
    memset(node_pages, 0, NODE_BYTES);
    size_t due = guarded_call(before, text);
    memcpy(expected, report_pages, due);
    memset(report_pages, BYTE, due);
    dirty_nodes();
    ask_again(before, text, due, "another report with dirty tables");
    ask_again(before, text, due, "another report at the next call");
    too_small_calls(before, text);
    if (!behind) {
        behind = true;
        ask_again(before, text, due, "another report behind an empty OPB text");
        behind = false;
    }
    mprotect(opb_pages, TEXT_ROOM, PROT_READ | PROT_WRITE);
    mprotect(text_pages, TEXT_ROOM, PROT_READ | PROT_WRITE);
    return due;
}

/* A copy of a text that has its length on the heap. */
static uint8_t *copied(const struct text *text) {
    uint8_t *copy = malloc(text->length ? text->length : 1);
    memcpy(copy, text->bytes, text->length);
    return copy;
}

/* The one call on tables fresh from malloc; the report is in `expected` then. */
static size_t ask_on_heap(int sink) {
    uint8_t *before = copied(&opb), *text = copied(&proof), *report = malloc(REPORT);
    uint32_t *nodes = malloc(NODE_BYTES);
    size_t due = call(before, text, nodes, NODES, report, REPORT);
    if (due < 1 || due > REPORT) {
        fail("the length is 0 or more than the report has");
    }
    if (write(sink, report, due) != (ssize_t)due) { /* valgrind says whether each byte was written */
        fail("the report cannot be written");
    }
    memcpy(expected, report, due);
    uint8_t *short_report = malloc(REPORT - 1);
    uint32_t *short_nodes = malloc(NODE_BYTES - 4);
    size_t results = call(before, text, short_nodes, NODES - 1, report, REPORT)
        + call(before, text, nodes, NODES, short_report, REPORT - 1);
    if (results) {
        fail("a table that is too small was taken");
    }
    free(before);
    free(text);
    free(report);
    free(nodes);
    free(short_report);
    free(short_nodes);
    return due;
}

/* ---------------------------------------------------------------- what came out */

/* What was counted, of texts that stand alone and of pairs. */
static struct {
    size_t refused[100], read, refuted, lines, holding;
} counts[2];
static uint64_t hash = 0xCBF29CE484222325u;

/* Counts a report, and adds it to the hash (FNV-1a). */
static void count(size_t due) {
    static const char YES[] = "refuted=yes\n", HOLDS[] = "holds=yes\n";
    for (size_t at = 0; at < due; at++) {
        hash = (hash ^ expected[at]) * 0x100000001B3u;
    }
    if (expected[due - 1] != '\n') {
        fail("the report does not end with a line feed");
    }
    if (!memcmp(expected, "refused=", 8)) {
        counts[behind].refused[strtoul((char *)expected + 8, NULL, 10) % 100]++;
        return;
    }
    counts[behind].read++;
    counts[behind].refuted += due >= sizeof YES - 1 && !memcmp(expected + due - (sizeof YES - 1), YES, sizeof YES - 1);
    for (size_t at = 0; at < due; at++) {
        bool ends = expected[at] == '\n';
        counts[behind].lines += ends;
        counts[behind].holding += ends && at >= sizeof HOLDS && !memcmp(expected + at - (sizeof HOLDS - 2), HOLDS, sizeof HOLDS - 1);
    }
    counts[behind].lines--;
}

/* Prints what was counted, of the numbers that a refusal can have there. */
static void print_counts(const char *what, bool of_pairs, size_t last) {
    static const size_t NUMBERS[] = {2, 3, 4, 5, 6, 7, 8, 50, 51};
    printf("%s: refused", what);
    for (size_t at = 0; at < sizeof NUMBERS / sizeof *NUMBERS && NUMBERS[at] <= last; at++) {
        printf("%s %zu: %zu", at ? "," : "", NUMBERS[at], counts[of_pairs].refused[NUMBERS[at]]);
    }
    printf("; read %zu, %zu lines, %zu hold, %zu refuted\n", counts[of_pairs].read, counts[of_pairs].lines, counts[of_pairs].holding,
           counts[of_pairs].refuted);
}

/* Writes bytes behind their length. */
static void put(FILE *file, const uint8_t *bytes, size_t size) {
    uint32_t written = (uint32_t)size;
    if (fwrite(&written, 4, 1, file) != 1 || fwrite(bytes, 1, size, file) != size) {
        printf("the samples cannot be written\n");
        exit(2);
    }
}

int main(int words, char **arguments) {
    if (words != 5 && words != 7) {
        printf("usage: random_bytes pages|heap SEED COUNT VECTORS [SAMPLES EVERY]\n");
        return 2;
    }
    int pages = !strcmp(arguments[1], "pages");
    uint64_t seed = strtoull(arguments[2], NULL, 10);
    size_t texts = strtoull(arguments[3], NULL, 10), every = words == 7 ? strtoull(arguments[6], NULL, 10) : 0;
    FILE *samples = every ? fopen(arguments[5], "wb") : NULL;
    int sink = open("/dev/null", O_WRONLY);
    read_vectors(arguments[4], "reports", &alone, NULL);
    read_vectors(arguments[4], "opb", &proofs, &models);
    if (pages) {
        make_pages();
    }
    for (place = 0; place < texts; place++) {
        state = seed * 0x2545F4914F6CDD1Du + place * 0x9E3779B97F4A7C15u * 1000003u;
        make_texts();
        size_t due = pages ? ask_between_pages() : ask_on_heap(sink);
        count(due);
        if (samples && place % every == 0) {
            put(samples, opb.bytes, opb.length);
            put(samples, proof.bytes, proof.length);
            put(samples, expected, due);
        }
        if ((place + 1) % 20000 == 0) {
            printf("%zu texts\n", place + 1);
            fflush(stdout);
        }
    }
    if (samples) {
        fclose(samples);
    }
    print_counts("alone", false, 8);
    print_counts("behind an OPB text", true, 51);
    printf("texts=%zu hash=%016llx\n", texts, (unsigned long long)hash);
    return 0;
}
