/* sandbox: gives up what the program doesn't need once all is open. */
#ifndef SANDBOX_H
#define SANDBOX_H

#include <stdbool.h>

#include "options.h"

/* Takes another user's rights, drops all capabilities, and filters system calls. It says why it fails. */
bool sandbox_enter(const struct options *options);

#endif
