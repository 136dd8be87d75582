struct rgb { unsigned char red, green, blue; };
int red(struct rgb rgb) { return rgb.red; }
