/* What the parts of this test share, and a function for each group of mant.h; address_lists is of the group "A node". */
#include <string.h>

#include "mant.h"

#define EDITION MANT_EDITION_1_2
#define NO_LISTS NULL, 0
#define CHECK(fact) check(fact, #fact, __FILE__, __LINE__)

void check(bool holds, const char *fact, const char *file, int line);

/* Document 002's example: source 1000, destination 1600, hop limit 1, an empty path. */
extern const uint8_t example[20];
extern const MantNode node;

void reading(void);
void originating(void);
void a_node(void);
void address_lists(void);
void stations_heard(void);
void the_transmit_queue(void);
void the_serial_exchange(void);
void reliable_messages(void);
void sealing_and_opening(void);
void planning(void);
