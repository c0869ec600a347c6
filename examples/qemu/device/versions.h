/* What is named otherwise in QEMU 7.2 and in QEMU 10. */
#ifndef SYNIC_VERSIONS_H
#define SYNIC_VERSIONS_H

#include "qemu/main-loop.h"

#if __has_include("system/system.h")
#include "system/address-spaces.h"
#include "system/memory.h"
#include "system/replay.h"
#include "system/reset.h"
#include "system/runstate.h"
#include "system/system.h"
#include "system/tcg.h"

typedef const void *SynicClassData;
typedef const Property SynicProperty;
#define SYNIC_PROPERTIES_END

#else
#include "exec/address-spaces.h"
#include "sysemu/replay.h"
#include "sysemu/reset.h"
#include "sysemu/runstate.h"
#include "sysemu/sysemu.h"
#include "sysemu/tcg.h"

#define bql_locked qemu_mutex_iothread_locked
#define bql_lock qemu_mutex_lock_iothread
#define bql_unlock qemu_mutex_unlock_iothread
typedef void *SynicClassData;
typedef Property SynicProperty;
#define SYNIC_PROPERTIES_END , DEFINE_PROP_END_OF_LIST()
#endif

#endif
