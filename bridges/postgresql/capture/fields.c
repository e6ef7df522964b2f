/*
 * Fields of a line: texts, snapshots, tables, values and settings.
 *
 * About snapshots: `xip` has the *top-level* transactions that were running, completely, also when the list of running subtransactions (`subxip`)
 * overflowed. A logical slot names transactions by their top-level xid. So which commits a statement saw follows from xmax and xip alone, and
 * subxip is not written. On a standby all are in subxip, which may overflow; such a snapshot is marked, and no place can be told from it.
 */
#include "gprom_capture.h"

#include <dlfcn.h>

#include "access/detoast.h"
#include "catalog/pg_class.h"
#include "fmgr.h"
#include "mb/pg_wchar.h"
#include "miscadmin.h"
#include "nodes/bitmapset.h"
#include "parser/parser.h"
#include "pgtime.h"
#include "plpgsql.h"
#include "utils/builtins.h"
#include "utils/bytea.h"
#include "utils/float.h"
#include "utils/json.h"
#include "utils/lsyscache.h"
#include "utils/rls.h"

#define LARGE_LINE (64 * 1024 * 1024)	/* bytes, behind which no values are written: a StringInfo ends at 1 GB, with an error */

static ParamFetchHook plpgsql_fetch = NULL; /* what PL/pgSQL's parameters are known by */

/* The settings that decide how values are printed. */
typedef struct Style
{
	int			date_style;
	int			interval_style;
	int			float_digits;
	int			bytea;
	pg_tz	   *zone;
} Style;

/* A text as a JSON string in UTF-8. */
void
append_text(StringInfo out, const char *text, int length)
{
	char	   *copy = pnstrdup(text, length);
	char	   *utf8 = copy;

	if (GetDatabaseEncoding() != PG_UTF8 && GetDatabaseEncoding() != PG_SQL_ASCII)
		utf8 = pg_server_to_any(copy, length, PG_UTF8);
	escape_json(out, utf8);
	if (utf8 != copy)
		pfree(utf8);
	pfree(copy);
}

/* Whether a text can stand in the file. The encoding SQL_ASCII allows any bytes. */
static bool
is_readable(const char *text, int length)
{
	return GetDatabaseEncoding() != PG_SQL_ASCII || pg_verify_mbstr(PG_UTF8, text, length, true);
}

/* The text of a statement, or the beginning of one that is longer than the limit and its length. */
void
append_statement(StringInfo out, const char *text, int length)
{
	int			kept = length;

	if (capture_max_text >= 0 && length > capture_max_text)
		kept = pg_mbcliplen(text, length, capture_max_text);
	if (!is_readable(text, kept))
		kept = 0;
	appendStringInfoString(out, ",\"q\":");
	append_text(out, text, kept);
	if (kept < length)
		appendStringInfo(out, ",\"qb\":%d", length);
}

/* "xmin:xmax:running,running", of top-level transactions. */
void
append_snapshot(StringInfo out, Snapshot snapshot)
{
	appendStringInfo(out, "%u:%u:", snapshot->xmin, snapshot->xmax);
	for (uint32 i = 0; i < snapshot->xcnt; i++)
		appendStringInfo(out, i ? ",%u" : "%u", snapshot->xip[i]);
	if (snapshot->takenDuringRecovery)
		appendStringInfoString(out, ":standby");
}

/* Sets the settings that values are printed by, and gives those that they replace. */
static Style
set_style(Style style)
{
	Style		before = {DateStyle, IntervalStyle, extra_float_digits, bytea_output, session_timezone};

	DateStyle = style.date_style;
	IntervalStyle = style.interval_style;
	extra_float_digits = style.float_digits;
	bytea_output = style.bytea;
	session_timezone = style.zone;
	return before;
}

/*
 * The style of all values, whatever a session has set: that in which a slot is read whose reader has the default settings, and UTC. The variables
 * are set as such, since a change by the functions of guc.c would cost as much as the rest of the line.
 */
static Style
fixed_style(void)
{
	static pg_tz *utc = NULL;
	Style		style = {USE_ISO_DATES, INTSTYLE_POSTGRES, 1, BYTEA_OUTPUT_HEX};

	if (utc == NULL)
		utc = pg_tzset("GMT");
	style.zone = utc;
	return style;
}

/* The value of one parameter. One above the limit is `{"bytes":n}`, which is told before it is printed where its type has a length. */
static void
append_datum(StringInfo out, ParamExternData *value)
{
	Oid			output;
	bool		varlena;
	Size		length = 0;
	char	   *text;

	if (value->isnull)
	{
		appendStringInfoString(out, "null");
		return;
	}
	getTypeOutputInfo(value->ptype, &output, &varlena);
	if (varlena)
		length = toast_raw_datum_size(value->value) - VARHDRSZ;
	if (out->len < LARGE_LINE && (capture_max_value < 0 || length <= (Size) capture_max_value))
	{
		text = OidOutputFunctionCall(output, value->value);
		length = strlen(text);
		if ((capture_max_value < 0 || length <= (Size) capture_max_value) && out->len + length < LARGE_LINE && is_readable(text, length))
		{
			append_text(out, text, length);
			pfree(text);
			return;
		}
		pfree(text);
	}
	appendStringInfo(out, "{\"bytes\":%zu}", length);
}

/* A parameter, if it has a value. */
static void
append_value(StringInfo out, bool *first, const char *name, ParamExternData *value)
{
	if (!OidIsValid(value->ptype))
		return;
	appendStringInfoString(out, *first ? ",\"v\":{" : ",");
	*first = false;
	append_text(out, name, strlen(name));
	appendStringInfoChar(out, ':');
	append_datum(out, value);
}

/*
 * Whether these are the parameters of a PL/pgSQL statement. Its text has the names of variables, and the values are fetched by a function of
 * plpgsql.so, which exports no symbol to compare with: it is told by the library that the function is in.
 */
static bool
is_plpgsql(ParamListInfo params)
{
	Dl_info		info;

	if (params->paramFetch == NULL || params->paramFetchArg == NULL || params->parserSetupArg == NULL)
		return false;
	if (params->paramFetch == plpgsql_fetch)
		return true;
	if (dladdr((void *) params->paramFetch, &info) == 0 || info.dli_fname == NULL || strstr(info.dli_fname, "plpgsql") == NULL)
		return false;
	plpgsql_fetch = params->paramFetch;
	return true;
}

/* The variables of PL/pgSQL that an expression reads, by their names. They are fetched speculatively, so that nothing is evaluated. */
static void
append_variables(StringInfo out, bool *first, ParamListInfo params)
{
	PLpgSQL_execstate *state = (PLpgSQL_execstate *) params->paramFetchArg;
	PLpgSQL_expr *expr = (PLpgSQL_expr *) params->parserSetupArg;

	for (int at = bms_next_member(expr->paramnos, -1); at >= 0 && at < params->numParams; at = bms_next_member(expr->paramnos, at))
	{
		PLpgSQL_datum *datum = state->datums[at];
		ParamExternData space;
		ParamExternData *value = params->paramFetch(params, at + 1, true, &space);

		if (datum->dtype == PLPGSQL_DTYPE_VAR || datum->dtype == PLPGSQL_DTYPE_PROMISE)
			append_value(out, first, ((PLpgSQL_var *) datum)->refname, value);
		else if (datum->dtype == PLPGSQL_DTYPE_RECFIELD)
		{
			PLpgSQL_recfield *part = (PLpgSQL_recfield *) datum;
			PLpgSQL_rec *record = (PLpgSQL_rec *) state->datums[part->recparentno];
			char	   *name = psprintf("%s.%s", record->refname, part->fieldname);

			append_value(out, first, name, value);
			pfree(name);
		}
	}
}

/* Parameters by their numbers. */
static void
append_numbered(StringInfo out, bool *first, ParamListInfo params)
{
	for (int i = 0; i < params->numParams; i++)
	{
		char		name[16];

		snprintf(name, sizeof(name), "%d", i + 1);
		append_value(out, first, name, &params->params[i]);
	}
}

/* The values of the parameters, by their numbers or by the names of PL/pgSQL's variables. */
void
append_values(StringInfo out, ParamListInfo params)
{
	bool		first = true;
	Style		before;

	if (params == NULL || params->numParams == 0)
		return;
	before = set_style(fixed_style());
	PG_TRY();
	{
		if (is_plpgsql(params))
			append_variables(out, &first, params);
		else if (params->paramFetch == NULL)
			append_numbered(out, &first, params);
	}
	PG_FINALLY();
	{
		set_style(before);
	}
	PG_END_TRY();
	if (!first)
		appendStringInfoChar(out, '}');
}

/* Whether the rows that the current user sees of a table are restricted by row level security. */
static bool
is_restricted(RangeTblEntry *entry)
{
#if PG_VERSION_NUM < 160000
	Oid			user = entry->checkAsUser;
#else
	Oid			user = InvalidOid;
#endif

	return check_enable_rls(entry->relid, user, true) == RLS_ENABLED;
}

/* The tables of a plan that it reads ("r") or writes ("w"), each once for each time that it names them. */
static void
append_tables(StringInfo out, PlannedStmt *plan, bool writes)
{
	const char *before = writes ? ",\"w\":[" : ",\"r\":[";
	bool		is_empty = true;
	int			index = 0;
	ListCell   *cell;

	foreach(cell, plan->rtable)
	{
		RangeTblEntry *entry = lfirst_node(RangeTblEntry, cell);
		char	   *name,
				   *schema;

		index++;
		if (entry->rtekind != RTE_RELATION || entry->relkind == RELKIND_VIEW || list_member_int(plan->resultRelations, index) != writes)
			continue;
		name = get_rel_name(entry->relid);
		schema = get_namespace_name(get_rel_namespace(entry->relid));
		if (name == NULL || schema == NULL)
			continue;
		appendStringInfoString(out, is_empty ? before : ",");
		is_empty = false;
		name = psprintf("%s.%s", schema, name);
		append_text(out, name, strlen(name));
		pfree(name);
	}
	if (!is_empty)
		appendStringInfoChar(out, ']');
}

/* The tables of a plan, with its views and inlined functions expanded, and whether row level security hides rows of them. */
void
append_plan(StringInfo out, PlannedStmt *plan)
{
	ListCell   *cell;

	append_tables(out, plan, false);
	append_tables(out, plan, true);
	foreach(cell, plan->rtable)
	{
		RangeTblEntry *entry = lfirst_node(RangeTblEntry, cell);

		if (entry->rtekind == RTE_RELATION && entry->relkind != RELKIND_VIEW && is_restricted(entry))
		{
			appendStringInfoString(out, ",\"rls\":1");
			return;
		}
	}
}

/* The settings of the session by which the text of a statement means something else than by the defaults, if there are any. */
void
append_settings(StringInfo out)
{
	const char *zone = pg_get_timezone_name(session_timezone);

	if (strcmp(zone, "UTC") != 0 && strcmp(zone, "GMT") != 0 && strcmp(zone, "Etc/UTC") != 0)
	{
		appendStringInfoString(out, ",\"tz\":");
		append_text(out, zone, strlen(zone));
	}
	if (!standard_conforming_strings)
		appendStringInfoString(out, ",\"bs\":1");
}
