/*
 * The file. Lines are collected in the backend and go out by one write() with O_APPEND, when a transaction ends or the buffer is full. These are
 * whole lines, which the kernel of a local file system does not mix with those of other backends. What a crash loses is of transactions that it
 * rolls back, or of the last one. A write that fails never disturbs the statement: the server's log says so, once a session for each file.
 */
#include "gprom_capture.h"

#include <fcntl.h>
#include <sys/stat.h>
#include <unistd.h>

#include "storage/fd.h"
#include "storage/ipc.h"
#include "utils/memutils.h"

#define LARGE_BUFFER (1024 * 1024)	/* bytes; a larger one is given back */

MemoryContext capture_context = NULL;

static StringInfoData pending;	/* lines that are not in the file yet */
static int	descriptor = -1;
static char *opened = NULL;		/* the name that `descriptor` was opened by */
static dev_t device;			/* of the file that was opened */
static ino_t inode;
static bool is_reported = false;	/* that this file cannot be written */
static bool is_torn = false;	/* the last write ended within a line */

/* Whether the name still leads to the file that is open. It does not after a change of the setting, a rename or a removal. */
static bool
is_current(void)
{
	struct stat status;

	return descriptor >= 0 && strcmp(opened, capture_file) == 0 && stat(capture_file, &status) == 0 && status.st_ino == inode &&
		status.st_dev == device;
}

/* Opens the file anew where it is not current. A line so goes to the file that has the name when it is written. */
static void
open_file(void)
{
	struct stat status;

	if (descriptor >= 0)
		close(descriptor);
	if (opened == NULL || strcmp(opened, capture_file) != 0)
	{
		if (opened)
			pfree(opened);
		opened = MemoryContextStrdup(capture_context, capture_file);
		is_reported = false;
	}
	is_torn = false;
	descriptor = BasicOpenFilePerm(capture_file, O_WRONLY | O_APPEND | O_CREAT | O_CLOEXEC, S_IRUSR | S_IWUSR);
	if (descriptor >= 0 && fstat(descriptor, &status) == 0)
	{
		device = status.st_dev;
		inode = status.st_ino;
	}
}

/* Writes all bytes. False, with errno, if that cannot be: then a part of a line may be in the file. */
static bool
write_bytes(const char *bytes, int length)
{
	while (length > 0)
	{
		int			done = write(descriptor, bytes, length);

		if (done < 0 && errno == EINTR)
			continue;
		if (done <= 0)
			return false;
		is_torn = bytes[done - 1] != '\n';
		bytes += done;
		length -= done;
	}
	return true;
}

/* Writes what is collected. A line that was torn before, as by a full disk, gets its end first, so that it spoils no other one. */
void
flush_lines(void)
{
	if (pending.data == NULL || pending.len == 0)
		return;
	if (!is_current())
		open_file();
	if (descriptor < 0 || (is_torn && !write_bytes("\n", 1)) || !write_bytes(pending.data, pending.len))
	{
		if (!is_reported)
			ereport(LOG, (errcode_for_file_access(), errhidestmt(true),
						  errmsg("gprom_capture: could not write \"%s\", so the capture has gaps: %m", capture_file)));
		is_reported = true;
	}
	resetStringInfo(&pending);
	if (pending.maxlen > LARGE_BUFFER)
	{
		pfree(pending.data);
		pending.data = NULL;
	}
}

/* The buffer, for a line to be appended. */
StringInfo
begin_line(void)
{
	if (pending.data == NULL)
	{
		MemoryContext old = MemoryContextSwitchTo(capture_context);

		initStringInfo(&pending);
		MemoryContextSwitchTo(old);
	}
	return &pending;
}

void
end_line(void)
{
	appendStringInfoChar(&pending, '\n');
	if (pending.len >= capture_buffer * 1024)
		flush_lines();
}

static void
at_exit(int code, Datum arg)
{
	flush_lines();
}

void
flush_at_exit(void)
{
	before_shmem_exit(at_exit, (Datum) 0);
}
