"""What the tests around the core share: the program, servers, pages, tables, files of shell tests, and the counts of all these."""
