/* covrec.h: writes a test record of Tiskrona from a C or C++ test bench, or through DPI-C.
 *
 * One file, C99 or C++. Include it where it is needed; in exactly one source file say COVREC_IMPLEMENTATION before.
 *
 *     covrec *rec = covrec_begin("t1");
 *     int v = covrec_signal(rec, "v", 8, 0);
 *     int i = covrec_instance(rec, "i", "g");
 *     covrec_set(rec, v, 5);
 *     covrec_sample(rec, i);
 *     if (covrec_end(rec, "t1.rec") != 0) { .. }
 *
 * Signals and instances are announced in the order of the design text, before the first event. Each call answers a
 * negative number where it is refused; covrec_error says why, and covrec_end and covrec_flush refuse a record to which
 * any call was refused. A signal is Unknown until it gets a value, so say the first values of all. The form of the bytes is that of docs/FORMATS.md, versions 1 and 2: a record is of version 2 where an
 * instance has arguments. Numbers are those of FORMATS: ids of 1 to 255 bytes, widths of 1 to 64 bits, at most 4,096
 * signals, 1,024 instances, 16 arguments, 1,048,576 events and 8,388,608 bytes.
 */
#ifndef COVREC_H
#define COVREC_H

#include <stdint.h>

#ifdef __cplusplus
extern "C" {
#endif

typedef struct covrec covrec;

enum covrec_outcome { COVREC_OK = 0, COVREC_WARNING = 1, COVREC_ERROR = 2, COVREC_FATAL = 3 };

/* Begins the record of a test. NULL where there is no memory. */
covrec *covrec_begin(const char *id);

/* How the test ended, its seed, the time in the units of whoever reads it, and who ran it. 0 each where not said. */
int covrec_outcome(covrec *rec, int outcome);
int covrec_seed(covrec *rec, uint64_t seed);
int covrec_time(covrec *rec, uint64_t time);
int covrec_user(covrec *rec, const char *user);

/* The next signal, or the next instance of a covergroup, of the design. Its number from 0. */
int covrec_signal(covrec *rec, const char *name, int width, int is_signed);
int covrec_instance(covrec *rec, const char *name, const char *group);

/* The next argument of the function `sample` of an instance. Its place from 0. */
int covrec_argument(covrec *rec, int instance, int width, int is_signed);

/* A signal gets a value, of which the low bits count, or one with an x or z bit. Where it has that value already, nothing
 * is written. */
int covrec_set(covrec *rec, int signal, uint64_t value);
int covrec_set_unknown(covrec *rec, int signal);

/* An instance is sampled with the values that the signals have now, and with those of its arguments: `known[k]` is 0
 * where argument k has an x or z bit. Without arguments both may be NULL. */
int covrec_sample(covrec *rec, int instance);
int covrec_sample_with(covrec *rec, int instance, const uint64_t *values, const unsigned char *known);

/* The same, an argument at a time: what DPI-C can call. The next covrec_sample takes the arguments told since. */
int covrec_value(covrec *rec, uint64_t value);
int covrec_value_unknown(covrec *rec);

/* Why the first refused call was refused, or NULL. */
const char *covrec_error(const covrec *rec);

/* Writes what there is up to now to a file, as a whole record, and goes on: a test that is killed later has left that. The
 * file is written beside its place and put there when it is whole. Negative as for covrec_end. */
int covrec_flush(covrec *rec, const char *path);

/* Writes the record to a file and frees it. Negative where a call was refused or the file can't be written. */
int covrec_end(covrec *rec, const char *path);

/* Frees a record that isn't wanted. */
void covrec_drop(covrec *rec);

#ifdef __cplusplus
}
#endif
#endif

#ifdef COVREC_IMPLEMENTATION
#ifndef COVREC_IMPLEMENTED
#define COVREC_IMPLEMENTED

#include <stdio.h>
#include <stdlib.h>
#include <string.h>

enum {
    COVREC_MOST_SIGNALS = 4096,
    COVREC_MOST_INSTANCES = 1024,
    COVREC_MOST_ARGUMENTS = 16,
    COVREC_MOST_EVENTS = 1048576,
    COVREC_LONGEST = 8388608
};

typedef struct {
    unsigned char *bytes;
    size_t len, room;
} covrec_bytes;

typedef struct {
    unsigned char width, is_signed;
} covrec_shape;

typedef struct {
    char *name, *group;
    int args;
    covrec_shape arg[COVREC_MOST_ARGUMENTS];
} covrec_row;

struct covrec {
    char *id, *user;
    int outcome;
    uint64_t seed, time;
    int signals, instances, has_args;
    char *signal_name[COVREC_MOST_SIGNALS];
    covrec_shape signal[COVREC_MOST_SIGNALS];
    unsigned char is_known[COVREC_MOST_SIGNALS];
    uint64_t value[COVREC_MOST_SIGNALS];
    covrec_row instance[COVREC_MOST_INSTANCES];
    uint32_t events;
    covrec_bytes body;
    int told;
    uint64_t told_value[COVREC_MOST_ARGUMENTS];
    unsigned char told_known[COVREC_MOST_ARGUMENTS];
    const char *error;
};

static int covrec_refuse(covrec *rec, const char *why) {
    if (rec->error == NULL) rec->error = why;
    return -1;
}

static int covrec_put(covrec *rec, covrec_bytes *to, const void *bytes, size_t len) {
    if (to->len + len > COVREC_LONGEST) return covrec_refuse(rec, "a record has at most 8388608 bytes");
    if (to->len + len > to->room) {
        size_t room = to->room == 0 ? 4096 : 2 * to->room;
        unsigned char *grown;
        while (room < to->len + len) room *= 2;
        grown = (unsigned char *)realloc(to->bytes, room);
        if (grown == NULL) return covrec_refuse(rec, "no memory");
        to->bytes = grown;
        to->room = room;
    }
    memcpy(to->bytes + to->len, bytes, len);
    to->len += len;
    return 0;
}

/* a number, its most significant byte first */
static int covrec_number(covrec *rec, covrec_bytes *to, int bytes, uint64_t value) {
    unsigned char spelled[8];
    int k;
    for (k = 0; k < bytes; k++) spelled[k] = (unsigned char)(value >> (8 * (bytes - 1 - k)));
    return covrec_put(rec, to, spelled, (size_t)bytes);
}

static int covrec_text(covrec *rec, covrec_bytes *to, const char *text) {
    size_t len = strlen(text);
    if (covrec_number(rec, to, 2, len) != 0) return -1;
    return covrec_put(rec, to, text, len);
}

static int covrec_fits(const char *text, size_t least, size_t most, unsigned char lowest) {
    size_t len = strlen(text), k;
    if (len < least || len > most) return 0;
    for (k = 0; k < len; k++)
        if ((unsigned char)text[k] < lowest || (unsigned char)text[k] > 0x7E) return 0;
    return 1;
}

static char *covrec_copy(const char *text) {
    size_t size = strlen(text) + 1;
    char *copy = (char *)malloc(size);
    if (copy != NULL) memcpy(copy, text, size);
    return copy;
}

covrec *covrec_begin(const char *id) {
    covrec *rec = (covrec *)calloc(1, sizeof(covrec));
    if (rec == NULL) return NULL;
    rec->id = covrec_copy(id);
    if (rec->id == NULL) {
        free(rec);
        return NULL;
    }
    if (!covrec_fits(id, 1, 255, 0x21)) covrec_refuse(rec, "an id has 1 to 255 bytes from ! to ~");
    return rec;
}

int covrec_outcome(covrec *rec, int outcome) {
    if (outcome < COVREC_OK || outcome > COVREC_FATAL) return covrec_refuse(rec, "an outcome is 0 to 3");
    rec->outcome = outcome;
    return 0;
}

int covrec_seed(covrec *rec, uint64_t seed) {
    rec->seed = seed;
    return 0;
}

int covrec_time(covrec *rec, uint64_t time) {
    rec->time = time;
    return 0;
}

int covrec_user(covrec *rec, const char *user) {
    char *copy;
    if (!covrec_fits(user, 0, 255, 0x20)) return covrec_refuse(rec, "a user has at most 255 bytes from blank to ~");
    copy = covrec_copy(user);
    if (copy == NULL) return covrec_refuse(rec, "no memory");
    free(rec->user);
    rec->user = copy;
    return 0;
}

int covrec_signal(covrec *rec, const char *name, int width, int is_signed) {
    char *copy;
    if (rec->events > 0) return covrec_refuse(rec, "signals are announced before the first event");
    if (rec->signals == COVREC_MOST_SIGNALS) return covrec_refuse(rec, "there are at most 4096 signals");
    if (!covrec_fits(name, 1, 1024, 0x21)) return covrec_refuse(rec, "a name has 1 to 1024 bytes from ! to ~");
    if (width < 1 || width > 64) return covrec_refuse(rec, "a width is 1 to 64");
    copy = covrec_copy(name);
    if (copy == NULL) return covrec_refuse(rec, "no memory");
    rec->signal_name[rec->signals] = copy;
    rec->signal[rec->signals].width = (unsigned char)width;
    rec->signal[rec->signals].is_signed = is_signed != 0;
    return rec->signals++;
}

int covrec_instance(covrec *rec, const char *name, const char *group) {
    covrec_row *row;
    if (rec->events > 0) return covrec_refuse(rec, "instances are announced before the first event");
    if (rec->instances == COVREC_MOST_INSTANCES) return covrec_refuse(rec, "there are at most 1024 instances");
    if (!covrec_fits(name, 1, 1024, 0x21) || !covrec_fits(group, 1, 1024, 0x21))
        return covrec_refuse(rec, "a name has 1 to 1024 bytes from ! to ~");
    row = &rec->instance[rec->instances];
    row->name = covrec_copy(name);
    row->group = covrec_copy(group);
    if (row->name == NULL || row->group == NULL) {
        free(row->name);
        free(row->group);
        row->name = row->group = NULL;
        return covrec_refuse(rec, "no memory");
    }
    return rec->instances++;
}

int covrec_argument(covrec *rec, int instance, int width, int is_signed) {
    covrec_row *row;
    if (rec->events > 0) return covrec_refuse(rec, "arguments are announced before the first event");
    if (instance < 0 || instance >= rec->instances) return covrec_refuse(rec, "there is no such instance");
    if (width < 1 || width > 64) return covrec_refuse(rec, "a width is 1 to 64");
    row = &rec->instance[instance];
    if (row->args == COVREC_MOST_ARGUMENTS) return covrec_refuse(rec, "an instance has at most 16 arguments");
    row->arg[row->args].width = (unsigned char)width;
    row->arg[row->args].is_signed = is_signed != 0;
    rec->has_args = 1;
    return row->args++;
}

static int covrec_event(covrec *rec, int tag, int number) {
    if (rec->events == COVREC_MOST_EVENTS) return covrec_refuse(rec, "there are at most 1048576 events");
    rec->events++;
    if (covrec_number(rec, &rec->body, 1, (uint64_t)tag) != 0) return -1;
    return covrec_number(rec, &rec->body, 2, (uint64_t)number);
}

static uint64_t covrec_low_bits(int width, uint64_t value) {
    return width < 64 ? value & ((UINT64_C(1) << width) - 1) : value;
}

static int covrec_known(covrec *rec, int known, int width, uint64_t value) {
    if (covrec_number(rec, &rec->body, 1, known ? 1u : 0u) != 0) return -1;
    return known ? covrec_number(rec, &rec->body, 8, covrec_low_bits(width, value)) : 0;
}

static int covrec_change(covrec *rec, int signal, int known, uint64_t value) {
    if (signal < 0 || signal >= rec->signals) return covrec_refuse(rec, "there is no such signal");
    value = known ? covrec_low_bits(rec->signal[signal].width, value) : 0;
    if (known == rec->is_known[signal] && value == rec->value[signal]) return 0;
    if (covrec_event(rec, 1, signal) != 0) return -1;
    rec->is_known[signal] = (unsigned char)known;
    rec->value[signal] = value;
    return covrec_known(rec, known, rec->signal[signal].width, value);
}

int covrec_set(covrec *rec, int signal, uint64_t value) { return covrec_change(rec, signal, 1, value); }

int covrec_set_unknown(covrec *rec, int signal) { return covrec_change(rec, signal, 0, 0); }

int covrec_sample_with(covrec *rec, int instance, const uint64_t *values, const unsigned char *known) {
    int k;
    if (instance < 0 || instance >= rec->instances) return covrec_refuse(rec, "there is no such instance");
    if (covrec_event(rec, 2, instance) != 0) return -1;
    for (k = 0; k < rec->instance[instance].args; k++)
        if (covrec_known(rec, known[k], rec->instance[instance].arg[k].width, values[k]) != 0) return -1;
    return 0;
}

static int covrec_tell(covrec *rec, int known, uint64_t value) {
    if (rec->told == COVREC_MOST_ARGUMENTS) return covrec_refuse(rec, "an instance has at most 16 arguments");
    rec->told_known[rec->told] = (unsigned char)known;
    rec->told_value[rec->told++] = value;
    return 0;
}

int covrec_value(covrec *rec, uint64_t value) { return covrec_tell(rec, 1, value); }

int covrec_value_unknown(covrec *rec) { return covrec_tell(rec, 0, 0); }

int covrec_sample(covrec *rec, int instance) {
    int told = rec->told;
    rec->told = 0;
    if (instance < 0 || instance >= rec->instances) return covrec_refuse(rec, "there is no such instance");
    if (told != rec->instance[instance].args) return covrec_refuse(rec, "a sample has a value for each argument");
    return covrec_sample_with(rec, instance, rec->told_value, rec->told_known);
}

const char *covrec_error(const covrec *rec) { return rec->error; }

static void covrec_head(covrec *rec, covrec_bytes *head) {
    int version = rec->has_args ? 2 : 1, k, a;
    covrec_put(rec, head, "CVRC", 4);
    covrec_number(rec, head, 2, (uint64_t)version);
    covrec_text(rec, head, rec->id);
    covrec_number(rec, head, 1, (uint64_t)rec->outcome);
    covrec_number(rec, head, 8, rec->seed);
    covrec_number(rec, head, 8, rec->time);
    covrec_text(rec, head, rec->user == NULL ? "" : rec->user);
    covrec_number(rec, head, 2, (uint64_t)rec->signals);
    for (k = 0; k < rec->signals; k++) {
        covrec_text(rec, head, rec->signal_name[k]);
        covrec_number(rec, head, 1, rec->signal[k].width);
        covrec_number(rec, head, 1, rec->signal[k].is_signed);
    }
    covrec_number(rec, head, 2, (uint64_t)rec->instances);
    for (k = 0; k < rec->instances; k++) {
        covrec_text(rec, head, rec->instance[k].name);
        covrec_text(rec, head, rec->instance[k].group);
        if (version == 2) covrec_number(rec, head, 1, (uint64_t)rec->instance[k].args);
        for (a = 0; a < rec->instance[k].args; a++) {
            covrec_number(rec, head, 1, rec->instance[k].arg[a].width);
            covrec_number(rec, head, 1, rec->instance[k].arg[a].is_signed);
        }
    }
    covrec_number(rec, head, 4, rec->events);
}

static int covrec_write(const char *path, const covrec_bytes *head, const covrec_bytes *body) {
    FILE *file = fopen(path, "wb");
    int is_whole;
    if (file == NULL) return -1;
    is_whole = fwrite(head->bytes, 1, head->len, file) == head->len && fwrite(body->bytes, 1, body->len, file) == body->len;
    return fclose(file) == 0 && is_whole ? 0 : -1;
}

/* puts a file in the place of another */
static int covrec_move(const char *from, const char *to) {
    if (rename(from, to) == 0) return 0;
    remove(to); /* (where a file can't be put over another) */
    return rename(from, to) == 0 ? 0 : -1;
}

int covrec_flush(covrec *rec, const char *path) {
    covrec_bytes head = {NULL, 0, 0};
    char *beside = (char *)malloc(strlen(path) + sizeof ".part");
    int done = -1;
    if (beside == NULL) return covrec_refuse(rec, "no memory");
    strcpy(beside, path);
    strcat(beside, ".part");
    covrec_head(rec, &head);
    if (head.len + rec->body.len > COVREC_LONGEST) covrec_refuse(rec, "a record has at most 8388608 bytes");
    if (rec->error == NULL && covrec_write(beside, &head, &rec->body) == 0) done = covrec_move(beside, path);
    if (done != 0) remove(beside);
    free(head.bytes);
    free(beside);
    return done;
}

int covrec_end(covrec *rec, const char *path) {
    int done = covrec_flush(rec, path);
    covrec_drop(rec);
    return done;
}

void covrec_drop(covrec *rec) {
    int k;
    for (k = 0; k < rec->signals; k++) free(rec->signal_name[k]);
    for (k = 0; k < rec->instances; k++) {
        free(rec->instance[k].name);
        free(rec->instance[k].group);
    }
    free(rec->body.bytes);
    free(rec->id);
    free(rec->user);
    free(rec);
}

#endif
#endif
