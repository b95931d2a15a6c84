/* The same tables and queries in SQLite, in memory. */
#ifndef DATABASE_H
#define DATABASE_H

#include "inputs.h"

/* Loads the tables into a new database and prepares the statement. */
void database_open(const tables *loaded, const char *sql);

/* Runs the prepared statement into the result area; gives the row count. */
size_t database_run(const areas *lent);

void database_close(void);

const char *database_version(void);

#endif
