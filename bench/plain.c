/* The MANT layer as one writes it plainly in C: read the header, check, copy. It answers as the library does, and is here to be measured beside it. The
   structs are laid out as those of mant.h. Its parts are compiled together, as one file, so that the compiler may inline any of it. */
#include <stdbool.h>
#include <stddef.h>
#include <stdint.h>
#include <string.h>

#include "plain/reading.c"
#include "plain/originating.c"
#include "plain/node.c"
#include "plain/stations.c"
#include "plain/queue.c"
#include "plain/reliable.c"
#include "plain/exchange.c"
#include "plain/aes.c"
#include "plain/sha1.c"
#include "plain/sealing.c"
