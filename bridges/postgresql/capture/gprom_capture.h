/*
 * gprom_capture: what each statement of a PostgreSQL server read, and in which order.
 *
 * For every statement that the server runs, at every depth (SPI, triggers, foreign key actions, DO, CALL), one line of JSON goes to a file:
 * the text with its values, the snapshot, the tables of its plan, how many rows it gave or wrote, and its place in the transaction. Another
 * line says how each transaction ended. README.md has the fields.
 *
 * In reading order: gprom_capture.c (settings, hooks and callbacks), entry.c (a statement from its begin to its line), fields.c (snapshots,
 * tables and values as JSON), file.c (the buffer and the file). There are no SQL objects, so there is no control file.
 */
#ifndef GPROM_CAPTURE_H
#define GPROM_CAPTURE_H

#include "postgres.h"

#include "executor/executor.h"
#include "lib/stringinfo.h"
#include "nodes/params.h"
#include "nodes/plannodes.h"
#include "utils/snapshot.h"

/* A statement that has begun. Its line is written when it ends: by ExecutorEnd, or by the end of its (sub)transaction. */
typedef struct Entry
{
	struct Entry *next;			/* begun before it, and not ended */
	QueryDesc  *query;			/* NULL for a utility statement */
	uint64		number;			/* of the session, in the order in which statements begin */
	SubTransactionId sub;
	uint64		rows;
	int			error;			/* the SQLSTATE that ended it, or 0 */
	bool		locks;			/* may wait, and then tests its rows again in their newest version */
	bool		finishing;		/* its AFTER triggers run */
	bool		partial;		/* its reader stopped before its last row, as far as is known */
	StringInfoData head;		/* the fields that are known when it begins */
	StringInfoData after;		/* of one that locks: the snapshot at its end */
} Entry;

/* What the hooks know of a statement that begins. */
typedef struct Begin
{
	const char *kind;			/* "S", or "U" for a utility statement */
	QueryDesc  *query;			/* of a utility statement NULL */
	const char *text;
	int			location;		/* of the statement in the text */
	int			length;			/* 0: to its end */
	Snapshot	snapshot;		/* of its reads, or NULL */
	ParamListInfo params;
} Begin;

/* gprom_capture.c: the settings */
extern bool capture_enabled;
extern char *capture_file;
extern int	capture_buffer;		/* kB */
extern int	capture_max_value;	/* bytes, or -1 */
extern int	capture_max_text;	/* bytes, or -1 */

/* entry.c */
extern Entry *capture_active;	/* the innermost statement whose code runs */
extern int	capture_depth;
extern Entry *begin_entry(const Begin *begin);
extern void end_entry(Entry *entry);
extern Entry *entry_of(QueryDesc *query);
extern void note_snapshot_at_end(Entry *entry);
extern void fail_entries(SubTransactionId from);
extern void end_transaction(const char *kind);
extern void end_subtransaction(SubTransactionId mine);
extern bool has_captured_transaction(void);

/* fields.c */
extern void append_text(StringInfo out, const char *text, int length);
extern void append_statement(StringInfo out, const char *text, int length);
extern void append_snapshot(StringInfo out, Snapshot snapshot);
extern void append_values(StringInfo out, ParamListInfo params);
extern void append_plan(StringInfo out, PlannedStmt *plan);
extern void append_settings(StringInfo out);

/* file.c */
extern MemoryContext capture_context;	/* of all that outlives a transaction */
extern StringInfo begin_line(void);
extern void end_line(void);
extern void flush_lines(void);
extern void flush_at_exit(void);

#endif
