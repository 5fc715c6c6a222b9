#include "shape.h"
int scaled(struct shape shape) { return SCALE * shape.width * shape.height; }
