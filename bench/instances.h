/* The families of sites that planning is timed on, drawn from a fixed seed. */
#ifndef INSTANCES_H
#define INSTANCES_H

#include "reference.h"

/* The families with deadlines follow each other. */
enum { FAMILIES = 31, SITES_A_FAMILY = 12, FIRST_TIMED_FAMILY = 25, TIMED_FAMILIES = 4 };

/* What idle power a family's sites are given: none, half the power of the lowest level, or twice
   that of the highest. Otherwise they are the same sites. */
enum idle { NO_IDLE, LOW_IDLE, HIGH_IDLE, IDLES };

const char *family_name(size_t family);
const char *idle_name(enum idle idle);

/* Writes the site file of one instance of a family; returns its length. */
size_t write_instance(size_t family, size_t number, enum idle idle, uint8_t *text);

/* The same for any site, with as few settings as it needs and deadlines where one is early. */
size_t write_site(const reference_instance *site, uint8_t *text);

#endif
