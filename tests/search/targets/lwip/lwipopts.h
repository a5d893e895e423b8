/* lwIP as the case study has it, and IPv6. */
#include "../../../../examples/case-study/lwip/lwipopts.h"
#undef LWIP_IPV6
#define LWIP_IPV6 1
