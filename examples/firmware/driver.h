/* The flash that the layer is mounted over. */
#ifndef DRIVER_H
#define DRIVER_H
#include <mintlintel_durable.h>
extern const struct mintlintel_nand driver;
#endif
