/* The tables that the benchmark prints. */
#ifndef TABLES_H
#define TABLES_H

void codec_table(void);
void request_tables(void);
void period_table(void);
void memory_table(void);
void growth_tables(void);

#endif
