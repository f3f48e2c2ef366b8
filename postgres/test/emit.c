/* postgres/test/emit.c: for tests, any bytes as a message of no database */
#include "postgres.h"

#include "access/htup_details.h"
#include "access/xlog.h"
#include "access/xloginsert.h"
#include "fmgr.h"
#include "replication/message.h"

PG_MODULE_MAGIC;

PG_FUNCTION_INFO_V1(emit_message);

Datum
emit_message(PG_FUNCTION_ARGS)
{
	bytea	   *bytes = PG_GETARG_BYTEA_PP(0);
	xl_logical_message record = {.dbId = InvalidOid, .prefix_size = sizeof "standby_prewarm",
	.message_size = VARSIZE_ANY_EXHDR(bytes)};

	XLogBeginInsert();
	XLogRegisterData((char *) &record, SizeOfLogicalMessage);
	XLogRegisterData((char *) "standby_prewarm", sizeof "standby_prewarm");
	XLogRegisterData(VARDATA_ANY(bytes), VARSIZE_ANY_EXHDR(bytes));
	XLogFlush(XLogInsert(RM_LOGICALMSG_ID, XLOG_LOGICAL_MESSAGE));
	PG_RETURN_VOID();
}
