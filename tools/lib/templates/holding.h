#include <pulleynavy_portable.h>
#define pulleynavy_parser_init(offset, features) ((void)pulleynavy_hold(stream, size), pulleynavy_parser_init(offset, features))
