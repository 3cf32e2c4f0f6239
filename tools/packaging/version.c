/* version: calls no function of the library except that for its version. */
#include "wasmprinter.h"

int main(void) { return wasmprinter_version() == WASMPRINTER_VERSION ? EXIT_SUCCESS : EXIT_FAILURE; }
