# The commands of this repository; `make` alone lists them.
.PHONY: help run test lib bench inspect

help:
	@echo "make run            proves and builds the program target/bin/report, and books the worked day of examples/day in a scratch folder"
	@echo "make run DIR=folder books the report in that folder"
	@echo "make test           the whole gate; its last line is 'N passed, 0 failed'"
	@echo "make lib            the library for C and Rust, target/staticlib/libcapi.a, with include/roselhanda.h and rust/roselhanda"
	@echo "make bench          the proved code against plain Rust"
	@echo "make inspect        for the inspector: everything proved anew in a clone, the theorems in full, what is assumed"
	@echo "make help           this list"

run:
	@bash scripts/run $(if $(DIR),"$(DIR)")

test:
	@bash scripts/test

lib:
	@bash scripts/build lib

bench: lib
	@bash scripts/bench

inspect:
	@bash scripts/inspect
