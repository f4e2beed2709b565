/*
 * The kernel's interfaces that drivers/tee uses, for a process. Each name of `headers` that a file of the driver includes means
 * this file; the headers of `taken` are the kernel's own.
 */
#ifndef SHIM_H
#define SHIM_H

#include "types.h"
#include "log.h"
#include <linux/const.h>
#include <linux/poison.h>
#include <linux/err.h>
#include <linux/container_of.h>
#include <linux/list.h>
#include "locks.h"
#include <linux/kref.h>
#include <linux/uuid.h>
#include <linux/mod_devicetable.h>
#include "memory.h"
#include "devices.h"

#endif
