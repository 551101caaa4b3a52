/* The C side of covrec_pkg.sv. */
#define COVREC_IMPLEMENTATION
#include "covrec.h"
