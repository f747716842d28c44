/* Corrects numbers of a record and writes it back in the maker's layout, to a new file.
 * Use: correct DESCRIPTION INPUT OUTPUT [ENTRY=NUMBER]..., the files byte for byte. Entries are counted from 0, in the order in which they are
 * listed; numbers are decimal. What follows the root's end is kept bit for bit, so OUTPUT has as many bytes as INPUT. What changes is printed first.
 *
 * Exit status: 0 written; 1 not written, since the entries do not make up the record, or a correction cannot be made, or brings errors; 2 refused;
 * 3 wrong use, or a file that cannot be read or written; 4 written, and to be looked at: entries have moved, as when a count was corrected, or errors
 * are left. After 0 and 4 OUTPUT is there whole, after any other no file was made or changed: what has that name already is not written over, be it
 * the input or another. The file system has to have hard links. */
#define _POSIX_C_SOURCE 200809L

#include "nodes.h"

#include <signal.h>
#include <stdlib.h>
#include <sys/stat.h>
#include <unistd.h>

enum { WRITTEN = 0, NOT_WRITTEN = 1, REFUSED = 2, NO_FILE = 3, TO_BE_LOOKED_AT = 4 };

enum { WORDS = 4 * MOST_ENTRIES };

/* A record and what was read of it. */
struct record {
    uint8_t bytes[MOST_INPUT + 1];
    size_t length;
    uint32_t values[WORDS], descriptors[WORDS];
    struct rippleshrug_answer answer;
};

static struct description desc;
static struct record before, after;
static int in_place; /* every entry of the corrected record is where it was */

static struct rippleshrug_entry entry_of(const struct record *r, size_t i) { return rippleshrug_entry_at(r->values, r->descriptors, i); }

static void read_record(struct record *r) {
    r->answer = rippleshrug_read(desc.bytes, desc.length, r->bytes, r->length, r->values, WORDS, r->descriptors, WORDS);
}

/* A correction as it was given: a number that is too long becomes the largest of its type, which is no entry and of no width. */
struct correction {
    const char *text;
    unsigned long long entry;
    long long number;
};

static int parse(const char *text, struct correction *c) {
    static const char digits[] = "0123456789";
    const char *equals = text + strspn(text, digits), *number;
    if (equals == text || *equals != '=') return 0;
    number = equals[1] == '-' ? equals + 2 : equals + 1;
    if (*number == '\0' || number[strspn(number, digits)] != '\0') return 0;
    c->text = text;
    c->entry = strtoull(text, NULL, 10);
    c->number = strtoll(equals + 1, NULL, 10);
    return 1;
}

/* The entry whose number the k-th bind around entry i lends, from the nearest outward; i stands in the second part of such a bind. */
static size_t bound_at(size_t i, unsigned k) {
    size_t at = i;
    while (at-- > 0) {
        struct rippleshrug_entry around = entry_of(&before, at);
        if (desc.kind[around.node] != BIND || at + around.size <= i || at + 1 + entry_of(&before, at + 1).size > i) continue;
        if (k-- == 0) return at + 1;
    }
    return 0; /* never: the check refuses an operand that names no bind */
}

/* A where has the number of the entry beneath it. */
static size_t below_wheres(size_t i) {
    while (desc.kind[entry_of(&before, i).node] == WHERE) i++;
    return i;
}

/* Which entries a compute takes its number from: an operand is five bytes, 01 in front and k at the end where it names a bind. */
static void print_sources(size_t i) {
    const uint8_t *operands = desc.bytes + desc.body[entry_of(&before, i).node] + 2;
    const char *word = " from";
    size_t source, last = 0;
    unsigned operand;
    for (operand = 0; operand < 2; operand++, operands += 5) {
        if (operands[0] != 1) continue;
        source = below_wheres(bound_at(i, operands[4]));
        if (source == last) continue;
        printf("%s entry %lu", word, (unsigned long)source);
        word = " and";
        last = source;
    }
}

/* Why an entry that is neither bits nor signed has nothing to correct, and which one has. */
static void print_not_stored(size_t i) {
    switch (desc.kind[entry_of(&before, i).node]) {
    case WHERE: printf(", has no bits of its own: its number is that of entry %lu\n", (unsigned long)below_wheres(i)); break;
    case COMPUTE:
        printf(", has no bits of its own: its number is computed");
        print_sources(i);
        putchar('\n');
        break;
    default: puts(", has no number"); break;
    }
}

/* Whether the entry is one of bits or signed and the number one of its width; otherwise says why not. */
static int takes(const struct correction *c) {
    size_t i = (size_t)c->entry;
    struct rippleshrug_entry e = entry_of(&before, i);
    int stored = desc.kind[e.node] == BITS || desc.kind[e.node] == SIGNED;
    long long numbers = stored ? 1LL << desc.bytes[desc.body[e.node]] : 0, least = desc.kind[e.node] == SIGNED ? -numbers / 2 : 0;
    if (stored && least <= c->number && c->number < least + numbers) return 1;
    printf("not written: %s: entry %lu, ", c->text, (unsigned long)i);
    print_place(&desc, e);
    if (stored)
        printf(", takes %lld to %lld\n", least, least + numbers - 1);
    else
        print_not_stored(i);
    return 0;
}

/* Puts a correction into the table that is to be written; or says why it cannot be made, and returns 0. */
static int make(const struct correction *c) {
    static uint8_t made[MOST_ENTRIES];
    if (c->entry >= before.answer.count) {
        printf("not written: %s: the entries are 0 to %" PRIu32 "\n", c->text, before.answer.count - 1);
        return 0;
    }
    if (made[c->entry]) {
        printf("not written: %s: entry %llu is corrected twice\n", c->text, c->entry);
        return 0;
    }
    made[c->entry] = 1;
    if (!takes(c)) return 0;
    after.values[4 * c->entry + 1] = (uint32_t)c->number;
    return 1;
}

/* Whether entry i of a record has errors, and of a corrected one whether it has more than it had; where entries have moved, any error is new. */
static int is_worse(const struct record *r, size_t i) {
    return entry_of(r, i).errors > (r == &after && in_place ? entry_of(&before, i).errors : 0);
}

/* The entry with which the trouble begins: from the root down, the first part of each that is worse. */
static size_t trouble_of(const struct record *r) {
    size_t at = 0, part;
    while (at < r->answer.count && !is_worse(r, at)) at++;
    for (part = at + 1; at < r->answer.count && part < at + entry_of(r, at).size; part++)
        if (is_worse(r, part)) at = part;
    return at;
}

static void print_trouble(const struct record *r) {
    size_t at = trouble_of(r);
    printf("look at entry %lu, ", (unsigned long)at);
    print_place(&desc, entry_of(r, at));
    putchar('\n');
}

static int differs(size_t bit) { return (before.bytes[bit / 8] ^ after.bytes[bit / 8]) >> (7 - bit % 8) & 1; }

/* Whether the entries, written as they are, give the record's bits from 0 to its end. With no errors they do; a number that is cut would be written
 * as zero bits that were not there. */
static int makes_itself(void) {
    struct rippleshrug_written written;
    size_t bit = 0;
    written = rippleshrug_write(desc.bytes, desc.length, before.values, WORDS, before.answer.count, after.bytes, before.length);
    if (written.refusal != RIPPLESHRUG_ACCEPTED || written.bits != before.answer.end) return 0;
    while (bit < before.answer.end && !differs(bit)) bit++;
    return bit == before.answer.end;
}

/* Reads the record, and says why it cannot be written back if it cannot. */
static int read_input(void) {
    struct rippleshrug_written asked;
    read_record(&before);
    if (before.answer.refusal != RIPPLESHRUG_ACCEPTED) {
        print_refusal(before.answer.refusal, before.answer.node);
        return REFUSED;
    }
    find_nodes(&desc);
    /* No entries are written to no buffer: what is refused is the description. */
    asked = rippleshrug_write(desc.bytes, desc.length, NULL, 0, 0, NULL, 0);
    if (asked.refusal != RIPPLESHRUG_ACCEPTED) {
        print_refusal(asked.refusal, asked.node);
        return REFUSED;
    }
    if (makes_itself()) return WRITTEN;
    printf("not written: a number of the record is cut, so its entries do not make up its bits; ");
    print_trouble(&before);
    return NOT_WRITTEN;
}

/* Writes the corrected table, and what follows the root's end in the input behind it. The writer leaves zero bits there. */
static int write_after(void) {
    struct rippleshrug_written written;
    size_t at;
    after.length = before.length;
    written = rippleshrug_write(desc.bytes, desc.length, after.values, WORDS, before.answer.count, after.bytes, after.length);
    if (written.refusal != RIPPLESHRUG_ACCEPTED) {
        print_refusal(written.refusal, written.node);
        return REFUSED;
    }
    at = written.bits / 8;
    if (written.bits % 8 > 0) {
        after.bytes[at] = (uint8_t)(after.bytes[at] | (before.bytes[at] & (0xFF >> written.bits % 8)));
        at++;
    }
    memcpy(after.bytes + at, before.bytes + at, after.length - at);
    return WRITTEN;
}

/* How many entries from the first on are the same nodes as before the correction. They then begin at the same bits too: with no number cut and no
 * scan, an entry begins where the bits and signed entries in front of it end. */
static size_t entries_kept(void) {
    size_t i = 0;
    while (i < before.answer.count && i < after.answer.count && entry_of(&before, i).node == entry_of(&after, i).node) i++;
    return i;
}

/* A number may say how others are read, as a count or a mark does. So what is to be written is read as whoever gets it will read it. */
static int read_again(void) {
    read_record(&after);
    if (after.answer.refusal != RIPPLESHRUG_ACCEPTED) {
        printf("not written: when corrected, the record is ");
        print_refusal(after.answer.refusal, after.answer.node);
        return REFUSED;
    }
    in_place = entries_kept() == before.answer.count && entries_kept() == after.answer.count;
    if (trouble_of(&after) < after.answer.count) {
        printf("not written: when corrected, the record has errors that it did not have; ");
        print_trouble(&after);
        return NOT_WRITTEN;
    }
    return in_place && entry_of(&after, 0).errors == 0 ? WRITTEN : TO_BE_LOOKED_AT;
}

static void print_change(size_t i, uint32_t number) {
    struct rippleshrug_entry e = entry_of(&before, i);
    printf("entry %lu, ", (unsigned long)i);
    print_place(&desc, e);
    printf(": ");
    print_number(&desc, e.node, e.number);
    printf(e.number == number ? " as before" : " becomes ");
    if (e.number != number) print_number(&desc, e.node, number);
    putchar('\n');
}

static void print_differences(void) {
    const char *word = "bits that differ: ";
    size_t bit, begin, bits = 8 * before.length;
    for (bit = 0; bit < bits; bit++) {
        if (!differs(bit)) continue;
        for (begin = bit; bit < bits && differs(bit); bit++) continue;
        printf("%s%lu to %lu", word, (unsigned long)begin, (unsigned long)bit);
        word = ", ";
    }
    puts(word[0] == 'b' ? "no bit differs" : "");
}

/* What is computed or looked at changes with what is stored, where the entries are the same. */
static void print_followers(void) {
    size_t i;
    printf("read again: %s, and every entry is where it was\n", entry_of(&after, 0).errors == 0 ? "no errors" : "errors are left");
    for (i = 0; i < before.answer.count; i++) {
        struct rippleshrug_entry e = entry_of(&after, i);
        if (desc.kind[e.node] == BITS || desc.kind[e.node] == SIGNED || e.number == entry_of(&before, i).number) continue;
        printf("so ");
        print_change(i, e.number);
    }
}

static void print_moved(void) {
    printf("read again: no errors, but the entries have moved, from entry %lu on: there are %" PRIu32 ", to bit %" PRIu32 ", and there were %" PRIu32
           ", to bit %" PRIu32 "\n",
        (unsigned long)entries_kept(), after.answer.count, after.answer.end, before.answer.count, before.answer.end);
}

static int same_file(const char *name, const char *other) {
    struct stat a, b;
    return stat(name, &a) == 0 && stat(other, &b) == 0 && a.st_dev == b.st_dev && a.st_ino == b.st_ino;
}

/* Whether nothing has the output's name, not even a link to nowhere; otherwise says what has. */
static int is_free(char **argv) {
    const char *output = argv[3];
    struct stat there;
    if (lstat(output, &there) != 0) {
        if (errno == ENOENT) return 1;
        fprintf(stderr, "%s: cannot be written: %s\n", output, strerror(errno));
        return 0;
    }
    fprintf(stderr, "%s: is %s, and no file is written over\n", output,
        same_file(output, argv[2]) ? "the input" : same_file(output, argv[1]) ? "the description" : "there already");
    return 0;
}

/* Puts the bytes into a file that mkstemp made, and gives it the rights that any new file gets. */
static int fill(int file) {
    size_t at = 0;
    ssize_t put = 1;
    mode_t mask = umask(0);
    umask(mask);
    while (at < after.length && (put = write(file, after.bytes + at, after.length - at)) > 0) at += (size_t)put;
    return put > 0 && fchmod(file, 0666 & ~mask) == 0 && fsync(file) == 0 && close(file) == 0;
}

/* The bytes go to a new name beside the output's, and get the output's name when they are all there: by a link, since a rename would take the place
 * of a file that was put there meanwhile. Signals wait until the new name is gone. */
static int save(const char *output) {
    static const char ending[] = ".XXXXXX";
    char *name = (char *)malloc(strlen(output) + sizeof ending);
    sigset_t all;
    int file, done;
    if (name != NULL) strcat(strcpy(name, output), ending);
    sigfillset(&all);
    sigprocmask(SIG_BLOCK, &all, NULL);
    file = name == NULL ? -1 : mkstemp(name);
    done = file >= 0 && fill(file) && link(name, output) == 0;
    if (!done) fprintf(stderr, "%s: cannot be written: %s\n", output, strerror(errno));
    if (file >= 0 && unlink(name) != 0) fprintf(stderr, "%s: cannot be removed: %s\n", name, strerror(errno));
    free(name);
    return done;
}

/* Says what changes, all of it before the file is there. */
static int report(int corrections, char **texts) {
    struct correction c;
    int i;
    printf("read to bit %" PRIu32 " of %lu, ", before.answer.end, 8ul * (unsigned long)before.length);
    if (entry_of(&before, 0).errors == 0) {
        puts("no errors");
    } else {
        printf("with errors; ");
        print_trouble(&before);
    }
    for (i = 0; i < corrections; i++)
        if (parse(texts[i], &c)) print_change((size_t)c.entry, (uint32_t)c.number);
    print_differences();
    if (in_place)
        print_followers();
    else
        print_moved();
    if (fflush(stdout) == 0 && !ferror(stdout)) return 1;
    fprintf(stderr, "standard output: cannot be written: %s\n", strerror(errno));
    return 0;
}

/* From the input's bytes to the output's: whether they are to be written, as a status. */
static int correct(int corrections, char **texts) {
    struct correction c;
    int i, status = read_input();
    if (status != WRITTEN) return status;
    memcpy(after.values, before.values, sizeof after.values);
    for (i = 0; i < corrections; i++)
        if (parse(texts[i], &c) && !make(&c)) status = NOT_WRITTEN;
    if (status == WRITTEN) status = write_after();
    if (status == WRITTEN) status = read_again();
    return status;
}

int main(int argc, char **argv) {
    struct correction c;
    int i, status;
    if (argc < 4) {
        fprintf(stderr, "use: %s DESCRIPTION INPUT OUTPUT [ENTRY=NUMBER]..., the files byte for byte\n", argc > 0 ? argv[0] : "correct");
        return NO_FILE;
    }
    for (i = 4; i < argc; i++) {
        if (parse(argv[i], &c)) continue;
        fprintf(stderr, "%s: is no correction: ENTRY=NUMBER is wanted, both in decimal\n", argv[i]);
        return NO_FILE;
    }
    if (!load(argv[1], desc.bytes, MOST_BYTES, &desc.length) || !load(argv[2], before.bytes, MOST_INPUT, &before.length)) return NO_FILE;
    if (!is_free(argv)) return NO_FILE;
    status = correct(argc - 4, argv + 4);
    if (status != WRITTEN && status != TO_BE_LOOKED_AT) return status;
    return report(argc - 4, argv + 4) && save(argv[3]) ? status : NO_FILE;
}
