/*
 * compat.h
 *		What differs between the versions of PostgreSQL, 15 to 18.
 *
 * All tests of the version are here.  Tried with 15 and 18, and with 18's
 * assertions; compiled with 17.  The names of 16 and 17 are those of 18.
 */
#ifndef STANDBY_PREWARM_COMPAT_H
#define STANDBY_PREWARM_COMPAT_H

#if PG_VERSION_NUM < 150000 || PG_VERSION_NUM >= 190000
#error "standby_prewarm is for PostgreSQL 15 to 18"
#endif

#include "storage/buf_internals.h"
#include "utils/rel.h"

#if PG_VERSION_NUM >= 160000
#include "utils/relfilenumbermap.h"
#define TagSpace(tag)			((tag)->spcOid)
#define TagDatabase(tag)		((tag)->dbOid)
#define TagFile(tag)			((tag)->relNumber)
#define RelationSpace(rel)		((rel)->rd_locator.spcOid)
#define RelationFile(rel)		((rel)->rd_locator.relNumber)
#define RelidOfFile(space, file) RelidByRelfilenumber(space, file)
#else
#include "utils/relfilenodemap.h"
#define TagSpace(tag)			((tag)->rnode.spcNode)
#define TagDatabase(tag)		((tag)->rnode.dbNode)
#define TagFile(tag)			((tag)->rnode.relNode)
#define RelationSpace(rel)		((rel)->rd_node.spcNode)
#define RelationFile(rel)		((rel)->rd_node.relNode)
#define RelidOfFile(space, file) RelidByRelfilenode(space, file)
#endif

#endif							/* STANDBY_PREWARM_COMPAT_H */
