/*
 * Statements that have begun, and the lines of those that have ended. The lines stand in the order of ends; the number `n` of each is in the order
 * of begins, and a number that is missing is a line that was lost.
 */
#include "gprom_capture.h"

#include "access/parallel.h"
#include "access/xact.h"
#include "commands/dbcommands.h"
#include "miscadmin.h"
#include "storage/lock.h"
#include "storage/proc.h"
#include "utils/fmgrprotos.h"
#include "utils/guc.h"
#include "utils/memutils.h"
#include "utils/snapmgr.h"
#include "utils/timestamp.h"

Entry	   *capture_active = NULL;
int			capture_depth = 0;

static Entry *open_entries = NULL;	/* the last one that began is first */
static uint64 counter = 0;
static LocalTransactionId local_xid = InvalidLocalTransactionId;	/* of the transaction with captured statements */
static char session[40];
static char *names = NULL;		/* of the database, the user and the client, as fields: no catalog can be read when a transaction ends */

/* A field with a text, unless it is empty. */
static void
append_name(StringInfo out, const char *field, const char *text)
{
	if (text == NULL || *text == '\0')
		return;
	appendStringInfo(out, ",\"%s\":", field);
	append_text(out, text, strlen(text));
}

/* Where the client is, as %r of the log: [local], or an address and a port. */
static void
append_client(StringInfo out)
{
	LOCAL_FCINFO(call, 0);
	Datum		address;
	StringInfoData text;

	if (MyBackendType != B_BACKEND)
		return;
	InitFunctionCallInfoData(*call, NULL, 0, InvalidOid, NULL, NULL);
	address = inet_client_addr(call);
	if (call->isnull)
	{
		append_name(out, "from", "[local]");
		return;
	}
	initStringInfo(&text);
	appendStringInfoString(&text, DatumGetCString(DirectFunctionCall1(inet_out, address)));
	call->isnull = false;
	appendStringInfo(&text, ":%d", DatumGetInt32(inet_client_port(call)));
	append_name(out, "from", text.data);
	pfree(text.data);
}

/* What a session needs once, when its first statement begins. */
static void
start_session(void)
{
	StringInfoData text;
	char	   *database,
			   *user;

	if (capture_context != NULL)
		return;
	capture_context = AllocSetContextCreate(TopMemoryContext, "gprom_capture", ALLOCSET_DEFAULT_SIZES);
	snprintf(session, sizeof(session), "%lx.%x", (long) MyStartTime, MyProcPid);	/* as %c of the log */
	initStringInfo(&text);
	database = get_database_name(MyDatabaseId);
	user = GetUserNameFromId(GetSessionUserId(), true);
	appendStringInfoString(&text, ",\"db\":");
	append_text(&text, database ? database : "", database ? strlen(database) : 0);
	appendStringInfoString(&text, ",\"user\":");
	append_text(&text, user ? user : "", user ? strlen(user) : 0);
	append_name(&text, "app", application_name);
	append_client(&text);
	names = MemoryContextStrdup(capture_context, text.data);
	pfree(text.data);
	flush_at_exit();
}

static LocalTransactionId
current_local_xid(void)
{
#if PG_VERSION_NUM >= 170000
	return MyProc->vxid.lxid;
#else
	return MyProc->lxid;
#endif
}

/* The fields that every line has. */
static void
append_head(StringInfo out, const char *kind, uint64 number)
{
	appendStringInfo(out, "{\"k\":\"%s\",\"p\":\"%s\",\"x\":%u,\"n\":" UINT64_FORMAT, kind, session, local_xid, number);
}

static const char *
command_of(QueryDesc *query)
{
	switch (query->operation)
	{
		case CMD_SELECT:
			return "SELECT";
		case CMD_INSERT:
			return "INSERT";
		case CMD_UPDATE:
			return "UPDATE";
		case CMD_DELETE:
			return "DELETE";
#if PG_VERSION_NUM >= 150000
		case CMD_MERGE:
			return "MERGE";
#endif
		default:
			return "?";
	}
}

/* Whether a statement may wait for other transactions and then go on with what they left: under READ COMMITTED it reads two versions. */
static bool
tests_rows_again(QueryDesc *query)
{
	Plan	   *top = query->plannedstmt->planTree;

	if (IsolationUsesXactSnapshot())
		return false;
	if (query->operation == CMD_INSERT)
		return IsA(top, ModifyTable) && ((ModifyTable *) top)->onConflictAction != ONCONFLICT_NONE;
	return query->operation != CMD_SELECT || query->plannedstmt->rowMarks != NIL;
}

/* The fields of a planned statement. */
static void
append_query(Entry *entry, QueryDesc *query)
{
	appendStringInfo(&entry->head, ",\"o\":\"%s\"", command_of(query));
	append_plan(&entry->head, query->plannedstmt);
	entry->locks = tests_rows_again(query);
	if (query->plannedstmt->rowMarks != NIL && query->operation == CMD_SELECT)
		appendStringInfoString(&entry->head, ",\"l\":1");
}

/* The text of a statement. A message, or the body of a function, may have several ones. */
static void
append_source(StringInfo out, const Begin *begin)
{
	int			whole = strlen(begin->text),
				before = begin->location > 0 && begin->location < whole ? begin->location : 0,
				length = begin->length;

	if (length <= 0 || length > whole - before)
		length = whole - before;
	append_statement(out, begin->text + before, length);
}

/* Where a statement stands: its times, its (sub)transaction, and what set it off. */
static void
append_place(Entry *entry, Snapshot snapshot)
{
	StringInfo	out = &entry->head;

	appendStringInfo(out, ",\"d\":%d,\"t\":" INT64_FORMAT ",\"i\":%d,\"X\":%u,\"sub\":%u", capture_depth, GetCurrentTimestamp(), XactIsoLevel,
					 GetTopTransactionIdIfAny(), entry->sub);
	if (capture_active)
		appendStringInfo(out, ",\"u\":" UINT64_FORMAT ",\"f\":%d", capture_active->number, capture_active->finishing);
	else
		appendStringInfo(out, ",\"m\":" INT64_FORMAT, GetCurrentStatementStartTimestamp());
	if (snapshot && snapshot->snapshot_type == SNAPSHOT_MVCC)
	{
		appendStringInfoString(out, ",\"s\":\"");
		append_snapshot(out, snapshot);
		appendStringInfo(out, "\",\"c\":%u", snapshot->curcid);
	}
}

/* Notes a statement that begins. */
Entry *
begin_entry(const Begin *begin)
{
	MemoryContext old;
	Entry	   *entry;

	start_session();
	local_xid = current_local_xid();
	old = MemoryContextSwitchTo(capture_context);
	entry = palloc0(sizeof(Entry));
	initStringInfo(&entry->head);
	MemoryContextSwitchTo(old);

	entry->query = begin->query;
	entry->number = ++counter;
	entry->sub = GetCurrentSubTransactionId();
	append_head(&entry->head, begin->kind, entry->number);
	append_place(entry, begin->snapshot);
	if (begin->query)
		append_query(entry, begin->query);
	if (begin->text)
		append_source(&entry->head, begin);
	append_settings(&entry->head);
	append_values(&entry->head, begin->params);

	entry->next = open_entries;
	open_entries = entry;
	return entry;
}

/* Notes the newest snapshot for a statement that tests rows again: no commit that it lacks can have been seen by such a test. */
void
note_snapshot_at_end(Entry *entry)
{
	if (entry->after.data == NULL)
	{
		MemoryContext old = MemoryContextSwitchTo(capture_context);

		initStringInfo(&entry->after);
		MemoryContextSwitchTo(old);
	}
	resetStringInfo(&entry->after);
	append_snapshot(&entry->after, GetLatestSnapshot());
}

/* Writes a statement that has ended, and forgets it. */
void
end_entry(Entry *entry)
{
	Entry	  **link = &open_entries;
	StringInfo	out = begin_line();

	while (*link && *link != entry)
		link = &(*link)->next;
	if (*link)
		*link = entry->next;
	appendBinaryStringInfo(out, entry->head.data, entry->head.len);
	if (entry->after.data && entry->after.len)
		appendStringInfo(out, ",\"e\":\"%s\"", entry->after.data);
	appendStringInfo(out, ",\"z\":" INT64_FORMAT ",\"rows\":" UINT64_FORMAT, GetCurrentTimestamp(), entry->rows);
	if (entry->partial)
		appendStringInfoString(out, ",\"part\":1");
	if (entry->error)
		appendStringInfo(out, ",\"error\":\"%s\"", unpack_sql_state(entry->error));
	appendStringInfoChar(out, '}');
	end_line();
	pfree(entry->head.data);
	if (entry->after.data)
		pfree(entry->after.data);
	pfree(entry);
}

Entry *
entry_of(QueryDesc *query)
{
	Entry	   *entry = open_entries;

	while (entry && entry->query != query)
		entry = entry->next;
	return entry;
}

/* Writes the statements of a failed (sub)transaction that have not ended. Utility statements end by themselves. */
void
fail_entries(SubTransactionId from)
{
	for (Entry *entry = open_entries, *next; entry; entry = next)
	{
		next = entry->next;
		if (entry->query && entry->sub >= from)
		{
			if (entry->error == 0)
				entry->error = ERRCODE_INTERNAL_ERROR;
			end_entry(entry);
		}
	}
}

bool
has_captured_transaction(void)
{
	return local_xid != InvalidLocalTransactionId;
}

/* Writes how a transaction ended. `T` is its time, which now() gives. */
void
end_transaction(const char *kind)
{
	StringInfo	out = begin_line();

	append_head(out, kind, ++counter);
	appendStringInfo(out, ",\"X\":%u,\"T\":" INT64_FORMAT ",\"z\":" INT64_FORMAT ",\"pid\":%d%s}", GetTopTransactionIdIfAny(),
					 GetCurrentTransactionStartTimestamp(), GetCurrentTimestamp(), MyProcPid, names);
	end_line();
	flush_lines();
	local_xid = InvalidLocalTransactionId;
}

/* Writes that a subtransaction was undone: all of the transaction so far with this `sub` or a greater one. */
void
end_subtransaction(SubTransactionId mine)
{
	StringInfo	out = begin_line();

	append_head(out, "B", ++counter);
	appendStringInfo(out, ",\"sub\":%u}", mine);
	end_line();
}
