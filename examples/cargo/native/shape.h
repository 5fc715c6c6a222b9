struct shape { int width, height; };
int scaled(struct shape shape);
