#include "shape.h"
int area(int width, int height)
{
    struct shape shape = {width, height};
    return scaled(shape);
}
