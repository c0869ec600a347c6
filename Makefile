# The scripts at the root as targets. Each finds out by itself what is missing, and says in its first lines what it does.
#   make [all]               the proved program, and the library for C
#   make install PREFIX=DIR  both, with the tools and documents, below DIR (/usr/local)
#   make docs                the generated pages, in build/docs (docs/TOOLS.md)
#   make definitions         the definitions in Agda, checked by it, and a program of them, in build/definitions
#   make coq                 the same in Coq, in build/coq
#   make guest               the conformance suite as a guest, in build/guest (docs/CONFORMANCE.md)
#   make package, make test  as ./package and ./test
PREFIX ?= /usr/local

all: synicboard library

synicboard:
	./synicboard --version

library:
	./library

install:
	./install "$(PREFIX)"

docs:
	tools/pages build/docs

definitions:
	tools/definitions/build build/definitions

coq:
	tools/definitions/build_coq build/coq

guest:
	conformance/guest/image build/guest

package:
	./package

test:
	./test

.PHONY: all synicboard library install docs definitions coq guest package test
.NOTPARALLEL:
