/* Puntclover: the version of these headers and of the archive that they are for. */
#ifndef PUNTCLOVER_VERSION_H
#define PUNTCLOVER_VERSION_H

#define PUNTCLOVER_VERSION_MAJOR 1
#define PUNTCLOVER_VERSION_MINOR 0
#define PUNTCLOVER_VERSION_PATCH 0
#define PUNTCLOVER_VERSION "1.0.0"

#endif
