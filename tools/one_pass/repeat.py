"""repeat FILE N: prints the module in the file N times, without decoding the text. For tools/one_pass.py."""

import sys

import wasmprinter

with open(sys.argv[1], "rb") as file:
    wasm = file.read()
for _ in range(int(sys.argv[2])):
    wasmprinter._print_whole(wasm, 0, b"  ", wasmprinter._SIZE_MAX, b"", 0)
