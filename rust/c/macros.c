/* A host may have macros of any short name. The headers have to compile among these; they are compiled here and never run. */
#define F )
#define S )
#define N )
#define M )
#define K )
#define f )
#define s )
#define n )
#define m )
#define k )
#define DONE )
#define READ )
#define WRITE )
#define FRAMES )
#define BLOCK )
#define BLOCKS )
#define PAYLOAD )
#define PROGRESS )
#define IMAGE )

#include "monitor.h"

bool macros_are_no_matter(const struct monitor_machine *machine);
bool macros_are_no_matter(const struct monitor_machine *machine) { return monitor_fits(machine); }
