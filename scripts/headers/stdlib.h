#pragma once
#include <stddef.h>
unsigned long strtoul(const char *, char **, int);
