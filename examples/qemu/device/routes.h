/* The SynIC of the emulator: what hw/hyperv/hyperv.c calls for QEMU's own VMBus. While there is a board, each HvSintRoute
 * is one of routes.c. */
#ifndef SYNIC_ROUTES_H
#define SYNIC_ROUTES_H

#include "hw/hyperv/hyperv.h"

bool synic_is_open(void);
HvSintRoute *synic_route_new(uint32_t vp, uint32_t sint, HvSintMsgCb cb, void *cb_data);
void synic_route_ref(HvSintRoute *route);
void synic_route_unref(HvSintRoute *route);
int synic_route_post(HvSintRoute *route, struct hyperv_message *message);
int synic_route_signal(HvSintRoute *route, unsigned flag);
int synic_route_raise(HvSintRoute *route);

#endif
