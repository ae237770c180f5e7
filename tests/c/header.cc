/* The header alone, twice. */
#include "pirasteh.h"
#include "pirasteh.h"
