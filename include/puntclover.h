/*
 * Puntclover: where each hub of a small network sends its frames. All headers at once; each may be included alone.
 *
 *   puntclover/hub.h       one hub, for firmware
 *   puntclover/message.h   a message's bytes, for radio tools
 *   puntclover/network.h   a whole network and the tracer, for planning tools and tests
 *   puntclover/meter.h     frames on their way over a network's routes, with bytes that add up
 *   puntclover/answers.h   what every answer means, and what every call asks of its caller
 *   puntclover/version.h   the version
 *
 * Link with libpuntclover.a. docs/FIRMWARE.md tells the rest.
 */
#ifndef PUNTCLOVER_H
#define PUNTCLOVER_H

#include "puntclover/answers.h"
#include "puntclover/hub.h"
#include "puntclover/message.h"
#include "puntclover/meter.h"
#include "puntclover/network.h"
#include "puntclover/version.h"

#endif
