# On a machine with the Rattle kit. `make help` lists the targets.
.PHONY: help run derive-table lint validate derive program library install wheel node page dist test-dist openapi-example check test test-bindings

TABLE = examples/vec-option-u8.json
DIALECT = 2020-12
FLAGS =
PREFIX = /usr/local
program = crates/schemagen
built = $(program)/out/schemagen
linter = crates/schemalint/out/schemalint
validator = crates/schemavalid/out/schemavalid
deriver = crates/schemaderive/out/schemaderive
retries = crates/test_retries/out/test_retries
library = out/library

help:
	@echo 'make run [TABLE="FILE.."] [DIALECT=..] [FLAGS=..] prints the document of each table, without proofs'
	@echo 'make derive-table SOURCE=FILE ROOT=TYPE [DIALECT=..] prints the document of a type of a Rust source, without proofs'
	@echo 'make lint [TABLE="FILE.."]                      tells what is wrong with each table, and whether it is plain'
	@echo 'make validate SCHEMA=FILE VALUES=FILE [DIALECT=..] tells which values the document accepts, and why not the others'
	@echo 'make derive                                     writes the generated implementations anew, from their declarations'
	@echo 'make program                                    proves the programs and all below them, and builds them'
	@echo 'make library [PREFIX=/usr/local]                builds the C library of what is proved, in out/library'
	@echo 'make install [PREFIX=/usr/local]                copies the programs, the C library and their manual pages'
	@echo 'make wheel, make node, make page                build the packages for Python and node, and the page, in out'
	@echo 'make dist, make test-dist                       write the files of a release into out/dist, and try each in an empty folder'
	@echo 'make openapi-example                            writes examples/openapi/openapi.json anew'
	@echo 'make check                                      all cases, outputs and tests by checked runs, without proofs'
	@echo 'make test                                       the merge gate'
	@echo 'make test-bindings                              the tests of Python, node, the page and Rust'

# Runs a program on each table by the toolchain's checked run, which is made once for all of them.
define try
	@echo 'a checked run without proofs: a minute or two for all tables; `make program` proves and builds once' >&2
	@cd $(1) && if [ $(words $(TABLE)) = 1 ]; then rt try < $(abspath $(TABLE)) $(2); else \
	    folder=$$(mktemp -d) && cp $(abspath $(TABLE)) $$folder && rt try --cases $$folder $(2); rm -r $$folder; fi
endef

# The document of each table.
run:
	$(call try,$(program),-- types $(DIALECT) $(FLAGS))

# The document of a type that a Rust source declares.
derive-table:
	@echo 'two checked runs without proofs: two to four minutes; `make program` proves and builds once' >&2
	@table=$$(mktemp) && (cd crates/schemaderive && rt try < $(abspath $(SOURCE)) -- --table '$(ROOT)' > $$table) \
	    && (cd $(program) && rt try < $$table -- types $(DIALECT) $(FLAGS)); status=$$?; rm -f $$table; exit $$status

# What is to be said of each table.
lint:
	$(call try,crates/schemalint,)

# Which values of a file a document accepts.
validate:
	@echo 'a checked run without proofs: a minute or two; `make program` proves and builds once' >&2
	@cd crates/schemavalid && rt try --data schema.json=$(abspath $(SCHEMA)) < $(abspath $(VALUES)) -- $(DIALECT) schema.json

# Writes the generated implementations of `JsonSchema` anew, from the declarations in the sources.
derive: $(deriver)
	@tools/derived $(deriver)

# Proves the programs and the crates below them, and builds them. What `rt ci` has proved of the same files on this machine is
# taken from what it kept; from nothing it takes some two hours on two cores.
program:
	tools/kept schemagen schemalint schemavalid schemaderive
	@echo 'built: $(built) types 2020-12 < TABLE' >&2
	@echo 'built: $(linter) TABLE' >&2
	@echo 'built: $(validator) 2020-12 SCHEMA VALUES' >&2
	@echo 'built: $(deriver) --table ROOT SOURCE' >&2

# If the programs are not built, they are built first.
$(built) $(linter) $(validator) $(deriver):
	@$(MAKE) --no-print-directory program

# The C library, of what is proved: an archive, a shared library, a header, a pkg-config file and a manual page.
library: $(built)
	@bindings/c/archive $(library)
	@bindings/c/build $(library)/libschemars_c.a $(library) $(PREFIX)

# If the library is not built, it is built first.
$(library)/libschemars.so.1:
	@$(MAKE) --no-print-directory library

# Copies the programs, the C library and their manual pages.
install: $(built) $(linter) $(validator) $(deriver) $(library)/libschemars.so.1
	install -d $(DESTDIR)$(PREFIX)/bin $(DESTDIR)$(PREFIX)/lib/pkgconfig $(DESTDIR)$(PREFIX)/include
	install -d $(DESTDIR)$(PREFIX)/share/man/man1 $(DESTDIR)$(PREFIX)/share/man/man3
	install $(built) $(linter) $(validator) $(deriver) $(DESTDIR)$(PREFIX)/bin
	install -m 644 $(library)/libschemars.a $(library)/libschemars.so.1 $(DESTDIR)$(PREFIX)/lib
	ln -sf libschemars.so.1 $(DESTDIR)$(PREFIX)/lib/libschemars.so
	install -m 644 $(library)/schemars.h $(DESTDIR)$(PREFIX)/include
	sed 's#^prefix=.*#prefix=$(PREFIX)#' $(library)/schemars.pc >$(DESTDIR)$(PREFIX)/lib/pkgconfig/schemars.pc
	install -m 644 docs/schemagen.1 docs/schemalint.1 docs/schemavalid.1 docs/schemaderive.1 $(DESTDIR)$(PREFIX)/share/man/man1
	install -m 644 docs/schemars.3 $(DESTDIR)$(PREFIX)/share/man/man3

# The packages for Python and node, and the page as one file. `bindings/node/build` says how WebAssembly is made.
wheel: $(library)/libschemars.so.1
	@python3 bindings/python/wheel.py $(library)/libschemars.so.1 out

out/node/schemars.wasm: $(library)/libschemars.so.1
	@bindings/node/build $(library)/module.bc out/node

node: out/node/schemars.wasm
	@cp bindings/node/index.mjs bindings/node/index.d.ts bindings/node/schemars.mjs bindings/node/package.json bindings/node/README.md LICENSE out/node
	@tar -C out/node --transform 's#^#package/#' -czf out/schemars-proved-1.0.0.tgz \
	    index.mjs index.d.ts schemars.mjs schemars.wasm package.json README.md LICENSE
	@echo out/schemars-proved-1.0.0.tgz

page: out/node/schemars.wasm
	@python3 bindings/page/make.py out/node/schemars.wasm out/schemars.html
	@echo out/schemars.html

# The files of a release, of what is proved: an archive, a Debian package, the packages for Python and node, the page, and their sums.
dist: wheel node page
	@tools/dist make out

test-dist:
	@tools/dist test out

# Writes examples/openapi/openapi.json anew: its paths, and the definitions that the program prints for
# its table.
openapi-example: $(built)
	@$(built) types openapi3 < examples/openapi/table.json | examples/openapi/join

# All cases, stored outputs and tests by checked runs, without proofs. What pages and examples show has to be what the case files
# have, and the files, lines and words that pages name have to be there.
check:
	tools/cases --check
	tools/places --check
	tools/check

# The merge gate: what `check` does, every proof from nothing, the programs, and the edits. The generated implementations have to be
# what the program writes now, and its cases are worked. The commands of the README are run, and the tables of all cases are judged by
# the JSON Schema of tables. Then the C library is built and called, the memory and the instructions that a row costs are measured, and
# each growth of the memory of the programs that were built is refused in turn.
test: check
	rt ci
	tools/edits --self-test
	tools/edits
	tools/derived --check $(deriver)
	tools/derive-cases $(deriver)
	tools/readme
	tools/table-schema --check
	@$(MAKE) --no-print-directory library
	tools/library $(library)
	tools/memory $(built)
	tools/instructions $(built)
	tools/refused $(built) $(retries)

# The tests of what calls the library from Python, node, a page and Rust. They need packages that the gate does not need,
# and those that are missing are named first.
test-bindings:
	@bindings/test needs
	@$(MAKE) --no-print-directory library wheel node page
	@bindings/test run $(library) out
