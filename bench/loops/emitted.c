/* One C text that strymonas wrote, C_TEXT, whose function gets the name FUNCTION. */
#include "offset.h"
#include "pipeline.h"

#define pipeline FUNCTION
#include C_TEXT
