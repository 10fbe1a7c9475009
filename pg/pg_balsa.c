/* Balsa text in PostgreSQL. Every call here ends soon, whatever it is handed: none can be interrupted. */
#include "postgres.h"

#include "access/genam.h"
#include "access/htup_details.h"
#include "access/table.h"
#include "catalog/pg_extension.h"
#include "common/hashfn.h"
#include "fmgr.h"
#include "funcapi.h"
#include "libpq/pqformat.h"
#include "miscadmin.h"
#include "utils/builtins.h"
#include "utils/fmgroids.h"
#include "utils/rel.h"

#include "balsa.h"

PG_MODULE_MAGIC;

/* the most atoms of a text that balsa_same takes: its time may grow exponentially (docs/PERFORMANCE.md) */
#define SAME_ATOMS 12
/* the bytes shown of a refused text, around the place */
#define SHOWN 72

/* A molecule's tables. */
typedef struct {
    int32_t atoms[BALSA_ATOM_TABLE];
    int32_t bonds[BALSA_BOND_TABLE];
} Tables;

/* The bytes of a text. */
typedef struct {
    const uint8_t *bytes;
    size_t length;
} Bytes;

/* What each function is lent, once for each expression of a statement. */
typedef struct {
    uint8_t out[BALSA_TEXT];
} Writing;

typedef struct {
    Tables tables;
    TupleDesc row;
} Checking;

typedef struct {
    uint8_t reg[BALSA_REGISTER];
} Redrawing;

typedef struct {
    Tables first, second;
    uint8_t row1[BALSA_ROW], row2[BALSA_ROW];
    uint16_t ren[BALSA_RENUMBERING];
} Comparing;

/* Refuses where the database has the extension of another edition: an index of it would not fit these answers. */
static void
check_edition(void)
{
    char edition[12];
    Relation extensions = table_open(ExtensionRelationId, AccessShareLock);
    ScanKeyData named;
    SysScanDesc scan;
    HeapTuple found;
    bool is_null = true;
    Datum version = (Datum) 0;

    snprintf(edition, sizeof edition, "%d", BALSA_EDITION);
    ScanKeyInit(&named, Anum_pg_extension_extname, BTEqualStrategyNumber, F_NAMEEQ, CStringGetDatum("balsa"));
    scan = systable_beginscan(extensions, ExtensionNameIndexId, true, NULL, 1, &named);
    found = systable_getnext(scan);
    if (HeapTupleIsValid(found))
        version = heap_getattr(found, Anum_pg_extension_extversion, RelationGetDescr(extensions), &is_null);
    if (is_null || strcmp(TextDatumGetCString(version), edition) != 0)
        ereport(ERROR, errcode(ERRCODE_OBJECT_NOT_IN_PREREQUISITE_STATE),
                errmsg("the library of balsa is edition %s, the extension of this database is not", edition),
                errhint("ALTER EXTENSION balsa UPDATE rebuilds the indexes that rest on it."));
    systable_endscan(scan);
    table_close(extensions, AccessShareLock);
}

/* Memory that lasts as long as the expression that calls. */
static void *
lent(FunctionCallInfo fcinfo, Size size)
{
    check_stack_depth();
    if (fcinfo->flinfo == NULL) {
        check_edition();
        return palloc0(size);
    }
    if (fcinfo->flinfo->fn_extra == NULL) {
        check_edition();
        fcinfo->flinfo->fn_extra = MemoryContextAllocZero(fcinfo->flinfo->fn_mcxt, size);
    }
    return fcinfo->flinfo->fn_extra;
}

static Bytes
bytes_of(text *t)
{
    return (Bytes) {(const uint8_t *) VARDATA_ANY(t), VARSIZE_ANY_EXHDR(t)};
}

static balsa_read_reply
read_into(Tables *into, Bytes t)
{
    return balsa_read(t.bytes, t.length, into->atoms, BALSA_ATOM_TABLE, into->bonds, BALSA_BOND_TABLE);
}

/* Whether reading tells a place with a refusal. */
static bool
has_place(uint32_t code)
{
    return code >= BALSA_LONG_TEXT && code <= BALSA_OPEN_BRIDGE;
}

/* Raises the error of a refusal; with a place, the bytes around it and a caret below. */
static void
refuse(Bytes t, uint32_t code, size_t place)
{
    size_t start = place > SHOWN / 2 ? place - SHOWN / 2 : 0;
    size_t end = Min(start + SHOWN, t.length);
    char shown[SHOWN + 1];
    size_t i;

    if (!has_place(code))
        ereport(ERROR, errcode(ERRCODE_INVALID_TEXT_REPRESENTATION),
                errmsg("refusal %u: %s", code, balsa_refusal_text(code)));
    for (i = start; i < end; i++)
        shown[i - start] = t.bytes[i] >= ' ' && t.bytes[i] <= '~' ? t.bytes[i] : '?';
    shown[i - start] = '\0';
    ereport(ERROR, errcode(ERRCODE_INVALID_TEXT_REPRESENTATION),
            errmsg("refusal %u at byte %zu: %s", code, place, balsa_refusal_text(code)),
            errdetail("\n%s\n%*s^", shown, (int) (place - start), ""));
}

/* Reads a text that has to be accepted. */
static balsa_read_reply
read_or_refuse(Tables *into, Bytes t)
{
    balsa_read_reply reply = read_into(into, t);

    if (reply.code)
        refuse(t, reply.code, reply.place);
    return reply;
}

/* ---- the type ---- */

PG_FUNCTION_INFO_V1(pg_balsa_in);
Datum
pg_balsa_in(PG_FUNCTION_ARGS)
{
    char *given = PG_GETARG_CSTRING(0);
    Bytes t = {(const uint8_t *) given, strlen(given)};

    read_or_refuse(lent(fcinfo, sizeof(Tables)), t);
    PG_RETURN_TEXT_P(cstring_to_text_with_len(given, t.length));
}

PG_FUNCTION_INFO_V1(pg_balsa_recv);
Datum
pg_balsa_recv(PG_FUNCTION_ARGS)
{
    StringInfo message = (StringInfo) PG_GETARG_POINTER(0);
    int length;
    char *given = pq_getmsgtext(message, message->len - message->cursor, &length);
    Bytes t = {(const uint8_t *) given, length};

    read_or_refuse(lent(fcinfo, sizeof(Tables)), t);
    PG_RETURN_TEXT_P(cstring_to_text_with_len(given, length));
}

PG_FUNCTION_INFO_V1(pg_balsa_of_text);
Datum
pg_balsa_of_text(PG_FUNCTION_ARGS)
{
    text *t = PG_GETARG_TEXT_PP(0);

    read_or_refuse(lent(fcinfo, sizeof(Tables)), bytes_of(t));
    PG_RETURN_TEXT_P(t);
}

PG_FUNCTION_INFO_V1(pg_balsa_out);
Datum
pg_balsa_out(PG_FUNCTION_ARGS)
{
    PG_RETURN_CSTRING(TextDatumGetCString(PG_GETARG_DATUM(0)));
}

PG_FUNCTION_INFO_V1(pg_balsa_send);
Datum
pg_balsa_send(PG_FUNCTION_ARGS)
{
    Bytes t = bytes_of(PG_GETARG_TEXT_PP(0));
    StringInfoData message;

    pq_begintypsend(&message);
    pq_sendtext(&message, (const char *) t.bytes, t.length);
    PG_RETURN_BYTEA_P(pq_endtypsend(&message));
}

/* The order of the bytes, a text before those that go on from it. */
static int
compare(FunctionCallInfo fcinfo)
{
    Bytes a = bytes_of(PG_GETARG_TEXT_PP(0)), b = bytes_of(PG_GETARG_TEXT_PP(1));
    int order = memcmp(a.bytes, b.bytes, Min(a.length, b.length));

    return order ? order : (a.length > b.length) - (a.length < b.length);
}

#define COMPARISON(name, type, expression)                                                                             \
    PG_FUNCTION_INFO_V1(name);                                                                                         \
    Datum name(PG_FUNCTION_ARGS)                                                                                       \
    {                                                                                                                  \
        PG_RETURN_##type(compare(fcinfo) expression);                                                                  \
    }

COMPARISON(pg_balsa_eq, BOOL, == 0)
COMPARISON(pg_balsa_ne, BOOL, != 0)
COMPARISON(pg_balsa_lt, BOOL, < 0)
COMPARISON(pg_balsa_le, BOOL, <= 0)
COMPARISON(pg_balsa_gt, BOOL, > 0)
COMPARISON(pg_balsa_ge, BOOL, >= 0)
COMPARISON(pg_balsa_cmp, INT32, +0)

PG_FUNCTION_INFO_V1(pg_balsa_hash);
Datum
pg_balsa_hash(PG_FUNCTION_ARGS)
{
    Bytes t = bytes_of(PG_GETARG_TEXT_PP(0));

    return hash_any(t.bytes, t.length);
}

/* ---- the calls ---- */

/* The columns of the answer, found once. */
static TupleDesc
columns(FunctionCallInfo fcinfo)
{
    TupleDesc found;
    MemoryContext before;

    if (get_call_result_type(fcinfo, NULL, &found) != TYPEFUNC_COMPOSITE)
        elog(ERROR, "balsa_check answers with a record");
    before = MemoryContextSwitchTo(fcinfo->flinfo->fn_mcxt);
    found = BlessTupleDesc(CreateTupleDescCopy(found));
    MemoryContextSwitchTo(before);
    return found;
}

PG_FUNCTION_INFO_V1(pg_balsa_check);
Datum
pg_balsa_check(PG_FUNCTION_ARGS)
{
    Checking *c = lent(fcinfo, sizeof(Checking));
    balsa_read_reply reply = read_into(&c->tables, bytes_of(PG_GETARG_TEXT_PP(0)));
    Datum values[3] = {UInt32GetDatum(reply.code), Int32GetDatum((int32) reply.place), (Datum) 0};
    bool nulls[3] = {false, !has_place(reply.code), reply.code == 0};

    if (c->row == NULL)
        c->row = columns(fcinfo);
    if (reply.code)
        values[2] = CStringGetTextDatum(balsa_refusal_text(reply.code));
    PG_RETURN_DATUM(HeapTupleGetDatum(heap_form_tuple(c->row, values, nulls)));
}

PG_FUNCTION_INFO_V1(pg_balsa_kekulized);
Datum
pg_balsa_kekulized(PG_FUNCTION_ARGS)
{
    Bytes t = bytes_of(PG_GETARG_TEXT_PP(0));
    Writing *w = lent(fcinfo, sizeof(Writing));
    balsa_standard_reply reply = balsa_standardize(t.bytes, t.length, w->out, BALSA_TEXT);

    if (reply.code)
        refuse(t, reply.code, reply.place);
    PG_RETURN_TEXT_P(cstring_to_text_with_len((char *) w->out, reply.length));
}

PG_FUNCTION_INFO_V1(pg_balsa_key);
Datum
pg_balsa_key(PG_FUNCTION_ARGS)
{
    Bytes t = bytes_of(PG_GETARG_TEXT_PP(0));
    Tables *tables = lent(fcinfo, sizeof(Tables));
    balsa_read_reply molecule = read_or_refuse(tables, t);
    balsa_key_reply reply = balsa_key(tables->atoms, BALSA_ATOM_TABLE, tables->bonds, BALSA_BOND_TABLE, molecule.atoms,
                                      molecule.bonds);

    if (reply.code)
        refuse(t, reply.code, 0);
    PG_RETURN_INT64((int64) reply.key);
}

/* The withdrawal check on a register that holds the first text alone. */
static uint32_t
compared(FunctionCallInfo fcinfo)
{
    Bytes kept = bytes_of(PG_GETARG_TEXT_PP(0)), asked = bytes_of(PG_GETARG_TEXT_PP(1));
    Redrawing *r = lent(fcinfo, sizeof(Redrawing));
    balsa_withdraw_reply withdrawn;
    balsa_withdrawn_reply reply;

    if (kept.length > BALSA_REGISTER_BODY)
        ereport(ERROR, errcode(ERRCODE_PROGRAM_LIMIT_EXCEEDED),
                errmsg("the first of two texts that are compared has at most %d bytes, and this one %zu",
                       BALSA_REGISTER_BODY, kept.length));
    balsa_register_empty(r->reg, BALSA_REGISTER);
    withdrawn = balsa_withdraw(r->reg, BALSA_REGISTER, 0, kept.bytes, kept.length);
    if (withdrawn.code)
        refuse(kept, withdrawn.code, withdrawn.place);
    reply = balsa_withdrawn(r->reg, BALSA_REGISTER, asked.bytes, asked.length);
    if (reply.code)
        refuse(asked, reply.code, reply.place);
    return reply.answer;
}

PG_FUNCTION_INFO_V1(pg_balsa_compared);
Datum
pg_balsa_compared(PG_FUNCTION_ARGS)
{
    uint32_t answer = compared(fcinfo);

    PG_RETURN_TEXT_P(cstring_to_text(answer == BALSA_CLEAR ? "clear" : answer == BALSA_WITHDRAWN ? "redrawn" : "undecided"));
}

/* Where the check cannot decide: an error, so that no condition passes a text over. */
PG_FUNCTION_INFO_V1(pg_balsa_redrawn);
Datum
pg_balsa_redrawn(PG_FUNCTION_ARGS)
{
    uint32_t answer = compared(fcinfo);

    if (answer != BALSA_CLEAR && answer != BALSA_WITHDRAWN)
        ereport(ERROR, errcode(ERRCODE_PROGRAM_LIMIT_EXCEEDED),
                errmsg("whether one text is a redrawing of the other was not decided within the bounded steps"),
                errhint("balsa_compared tells such a text as undecided."));
    PG_RETURN_BOOL(answer == BALSA_WITHDRAWN);
}

/* The number of atoms of a text, which has to be small. */
static balsa_read_reply
read_small(Tables *into, Bytes t)
{
    balsa_read_reply reply = read_or_refuse(into, t);

    if (reply.atoms > SAME_ATOMS)
        ereport(ERROR, errcode(ERRCODE_PROGRAM_LIMIT_EXCEEDED),
                errmsg("balsa_same takes texts of at most %d atoms, and has one of %zu", SAME_ATOMS, reply.atoms),
                errhint("balsa_redrawn compares larger ones."));
    return reply;
}

PG_FUNCTION_INFO_V1(pg_balsa_same);
Datum
pg_balsa_same(PG_FUNCTION_ARGS)
{
    Bytes first = bytes_of(PG_GETARG_TEXT_PP(0)), second = bytes_of(PG_GETARG_TEXT_PP(1));
    Comparing *c = lent(fcinfo, sizeof(Comparing));
    balsa_read_reply a = read_small(&c->first, first), b = read_small(&c->second, second);
    uint32_t code = balsa_same(c->first.atoms, BALSA_ATOM_TABLE, c->first.bonds, BALSA_BOND_TABLE, a.atoms, a.bonds,
                               c->second.atoms, BALSA_ATOM_TABLE, c->second.bonds, BALSA_BOND_TABLE, b.atoms, b.bonds,
                               c->row1, BALSA_ROW, c->row2, BALSA_ROW, c->ren, BALSA_RENUMBERING);

    if (code && code != BALSA_DIFFERENT)
        refuse(first, code, 0);
    PG_RETURN_BOOL(code == 0);
}

PG_FUNCTION_INFO_V1(pg_balsa_edition);
Datum
pg_balsa_edition(PG_FUNCTION_ARGS)
{
    PG_RETURN_INT32((int32) balsa_edition());
}
