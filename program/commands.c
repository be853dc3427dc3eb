/*
 * One function a command: files are read in the order in which they are tested, the library is asked, a register that
 * it changed is saved, and only then its answer is printed. A refused command prints nothing.
 */
#include "program.h"

#include <stdlib.h>
#include <string.h>

static void read_identified(session *s) {
    read_reference(&s->f, s->o.reference, s->o.sequence);
    identify_reference(&s->f);
}

fv_entered enter_allele(session *s, const allele *given) {
    return fv_entry(s->r.image.at, s->r.image.length, s->f.digest, FV_DIGEST_LENGTH, s->f.residues.at,
                    s->f.residues.length, given->start, given->end, given->replacement.at, given->replacement.length);
}

/* An entry that can't be accepted tells whether the reference is the register's, and changes nothing. */
static void expect_own_reference(session *s) {
    allele backwards = {1, 0, text_of("")};
    fv_entered e = enter_allele(s, &backwards);
    if (e.refusal != FV_START_ABOVE_END)
        refuse(e.refusal, e.value);
}

static uint64_t numbers_issued(const session *s) {
    return fv_read_record(s->r.image.at, s->r.image.length, 0).value;
}

static fv_record record_of(const session *s, uint64_t number) {
    fv_record record = fv_read_record(s->r.image.at, s->r.image.length, number);
    expect_accepted(record.refusal, record.value);
    return record;
}

static allele allele_of(const session *s, const fv_record *record) {
    return (allele){record->start, record->end, {s->r.image.at + record->offset, record->length}};
}

static void add_interval(table *t, const allele *a) {
    add_number(t, a->start);
    add_number(t, a->end);
    add_bytes(t, a->replacement);
}

static allele add_record(session *s, uint64_t number) {
    fv_record record = record_of(s, number);
    allele a = allele_of(s, &record);
    add_number(&s->t, number);
    add_words(&s->t, record.status == FV_ACTIVE ? "active" : "inactive");
    add_interval(&s->t, &a);
    return a;
}

static fv_identified identify(const reference *f, const allele *a, uint8_t identifier[FV_IDENTIFIER_LENGTH]) {
    return fv_allele_identifier(f->residues.at, f->residues.length, a->start, a->end, a->replacement.at,
                                a->replacement.length, f->digest, FV_DIGEST_LENGTH, identifier, FV_IDENTIFIER_LENGTH,
                                0);
}

/* A record's replacement may be longer than the library takes one: then it is refused, and this answers 1. */
static int add_identifier(session *s, const allele *a) {
    uint8_t identifier[FV_IDENTIFIER_LENGTH];
    fv_identified i = identify(&s->f, a, identifier);
    if (i.refusal == FV_ACCEPTED)
        add_bytes(&s->t, (text){identifier, sizeof identifier});
    else
        add_refusal(&s->t, i.refusal, i.value);
    return i.refusal != FV_ACCEPTED;
}

void add_form(table *t, const fv_form *form, const uint8_t *replacement) {
    static const char *const kinds[] = {
        [FV_UNCHANGED] = "unchanged", [FV_SUBSTITUTION] = "substitution", [FV_INDEL] = "indel"};
    allele normal = {form->start, form->end, {replacement, form->length}};
    add_words(t, kinds[form->kind]);
    add_interval(t, &normal);
    add_moved(t, form->left_widened, form->left_shrunk);
    add_moved(t, form->right_widened, form->right_shrunk);
}

void add_entered(session *s, const allele *given, const fv_entered *e) {
    static const char *const answers[] = {[FV_NEW] = "new", [FV_AGAIN] = "again", [FV_KNOWN] = "known"};
    fv_record record = record_of(s, e->number);
    allele normal = allele_of(s, &record);
    add_words(&s->t, answers[e->answer]);
    add_number(&s->t, e->number);
    add_interval(&s->t, &normal);
    add_moved(&s->t, e->left_widened, e->left_shrunk);
    add_moved(&s->t, e->right_widened, e->right_shrunk);
    add_identifier(s, given);
}

/* An image of zeros. Where a capacity is over its limit fv_blank says so, and needs none. */
static void make_image(buffer *image, const options *o) {
    bool within = o->records <= FV_COUNT_LIMIT && o->journal <= FV_COUNT_LIMIT && o->pool <= FV_POOL_LIMIT;
    image->length = 0;
    reserve(image, within ? FV_IMAGE_SIZE(o->records, o->journal, o->pool) : 0);
    image->length = within ? FV_IMAGE_SIZE(o->records, o->journal, o->pool) : 0;
    memset(image->at, 0, image->length);
}

int blank_command(session *s) {
    const options *o = &s->o;
    open_register_to_blank(&s->r, o->register_name, o->force);
    read_identified(s);
    make_image(&s->r.image, o);
    fv_outcome made = fv_blank(s->r.image.at, s->r.image.length, s->f.residues.length, s->f.digest, FV_DIGEST_LENGTH,
                               o->records, o->journal, o->pool);
    expect_accepted(made.refusal, made.value);
    save_register(&s->r);
    begin_table(&s->t, "answer records journal pool sequence residues identifier", o->tsv);
    add_words(&s->t, "blank");
    add_number(&s->t, o->records);
    add_number(&s->t, o->journal);
    add_number(&s->t, o->pool);
    add_bytes(&s->t, bytes_of(&s->f.name));
    add_number(&s->t, s->f.residues.length);
    add_bytes(&s->t, (text){s->f.identifier, sizeof s->f.identifier});
    print_table(&s->t);
    return 0;
}

int enter_command(session *s) {
    open_register_to_change(&s->r, s->o.register_name);
    read_identified(s);
    if (s->o.vcf != NULL) {
        expect_own_reference(s);
        return take_calls(s, true);
    }
    fv_entered e = enter_allele(s, &s->o.given);
    expect_accepted(e.refusal, e.value);
    save_register(&s->r);
    begin_table(&s->t, "answer number start end replacement left right identifier", s->o.tsv);
    add_entered(s, &s->o.given, &e);
    print_table(&s->t);
    return 0;
}

/* Saves a register in which a number has changed, and shows it as it now stands. */
static int save_changed(session *s, const char *answer, uint64_t number) {
    save_register(&s->r);
    begin_table(&s->t, "answer number status start end replacement", s->o.tsv);
    add_words(&s->t, answer);
    add_record(s, number);
    print_table(&s->t);
    return 0;
}

int withdraw_command(session *s) {
    open_register_to_change(&s->r, s->o.register_name);
    fv_outcome withdrawn = fv_withdraw(s->r.image.at, s->r.image.length, s->o.number);
    expect_accepted(withdrawn.refusal, withdrawn.value);
    return save_changed(s, "withdrawn", s->o.number);
}

int undo_command(session *s) {
    open_register_to_change(&s->r, s->o.register_name);
    fv_undone undone = fv_undo(s->r.image.at, s->r.image.length);
    expect_accepted(undone.refusal, undone.value);
    return save_changed(s, "undone", undone.number);
}

int seal_command(session *s) {
    open_register_to_change(&s->r, s->o.register_name);
    fv_outcome sealed = fv_seal(s->r.image.at, s->r.image.length);
    expect_accepted(sealed.refusal, sealed.value);
    save_register(&s->r);
    begin_table(&s->t, "answer", s->o.tsv);
    add_words(&s->t, "sealed");
    print_table(&s->t);
    return 0;
}

/* Opens the register and, where one is named, its own reference. */
static void open_to_read(session *s) {
    open_register(&s->r, s->o.register_name);
    if (s->o.reference == NULL)
        return;
    read_identified(s);
    expect_own_reference(s);
}

/* The numbers from one to another, with their identifiers where there is a reference. */
static int print_records(session *s, uint64_t first, uint64_t last) {
    bool identified = s->o.reference != NULL;
    int status = 0;
    begin_table(&s->t, identified ? "number status start end replacement identifier"
                                  : "number status start end replacement", s->o.tsv);
    for (uint64_t number = first; number <= last; number++) {
        allele a = add_record(s, number);
        if (identified)
            status |= add_identifier(s, &a);
    }
    print_table(&s->t);
    return status;
}

int list_command(session *s) {
    open_to_read(s);
    return print_records(s, 1, numbers_issued(s));
}

int show_command(session *s) {
    open_to_read(s);
    fv_record record = record_of(s, s->o.number);
    allele normal = allele_of(s, &record);
    int status = print_records(s, s->o.number, s->o.number);
    if (s->o.reference != NULL && !s->o.tsv)
        print_picture(&s->f, NULL, &normal);
    return status;
}

static fv_form form_given(const session *s, const buffer *out) {
    const allele *a = &s->o.given;
    return fv_normal_form(s->f.residues.at, s->f.residues.length, a->start, a->end, a->replacement.at,
                          a->replacement.length, out->at, out->room, 0);
}

int form_command(session *s) {
    buffer out = {0};
    read_reference(&s->f, s->o.reference, s->o.sequence);
    if (s->o.vcf != NULL)
        return take_calls(s, false);
    reserve(&out, 0);
    fv_form form = form_given(s, &out);
    if (form.refusal == FV_NO_ROOM) {
        reserve(&out, form.value);
        form = form_given(s, &out);
    }
    expect_accepted(form.refusal, form.value);
    begin_table(&s->t, "kind start end replacement left right", s->o.tsv);
    add_form(&s->t, &form, out.at);
    print_table(&s->t);
    allele normal = {form.start, form.end, {out.at, form.length}};
    if (!s->o.tsv)
        print_picture(&s->f, &s->o.given, &normal);
    free(out.at);
    return 0;
}

static void add_named(table *t, const char *of, const uint8_t *identifier, size_t length) {
    add_words(t, of);
    add_bytes(t, (text){identifier, length});
}

int identify_command(session *s) {
    uint8_t location[FV_LOCATION_IDENTIFIER_LENGTH], identifier[FV_IDENTIFIER_LENGTH];
    read_identified(s);
    fv_identified i = identify(&s->f, &s->o.given, identifier);
    expect_accepted(i.refusal, i.value);
    uint64_t start = s->o.given.start - i.left_widened + i.left_shrunk;
    uint64_t end = s->o.given.end + i.right_widened - i.right_shrunk;
    fv_written w = fv_location_identifier(s->f.residues.length, start, end, s->f.digest, FV_DIGEST_LENGTH, location,
                                          sizeof location, 0);
    expect_accepted(w.refusal, w.value);
    begin_table(&s->t, "of identifier", s->o.tsv);
    add_named(&s->t, "sequence", s->f.identifier, sizeof s->f.identifier);
    add_named(&s->t, "location", location, sizeof location);
    add_named(&s->t, "allele", identifier, sizeof identifier);
    print_table(&s->t);
    return 0;
}

int check_command(session *s) {
    open_register(&s->r, s->o.register_name);
    uint64_t numbers = numbers_issued(s), active = 0;
    for (uint64_t number = 1; number <= numbers; number++) active += record_of(s, number).status == FV_ACTIVE;
    begin_table(&s->t, "answer numbers active", s->o.tsv);
    add_words(&s->t, "well formed");
    add_number(&s->t, numbers);
    add_number(&s->t, active);
    print_table(&s->t);
    return 0;
}
