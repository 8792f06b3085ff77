/* The parts of the test of the example host. Each prints what comes of its cases, which is compared with tests/host/expected. */
#ifndef PARTS_H
#define PARTS_H

/* Reports, clear and unclear, through encoder and decoder. */
void reports(void);

/* Links that break, and how they are mended. */
void links(void);

#endif
