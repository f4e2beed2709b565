/* The properties of the application, which header.c gathers and properties.c reads. */
#ifndef PROPERTIES_H
#define PROPERTIES_H

#include <user_ta_header.h>

extern const struct user_ta_property ta_properties[];
extern const uint32_t ta_property_count;

#endif
