# Builds the library for C programs, tests it, measures it and installs it. Run it at the top of the repository.
#   make                          out/libhongpilas.a and .so; out/libhongpilas_scintilla.a and .so, the Scintilla-compatible interface
#   make examples                 those in C: out/replace_all and out/replace_all_scintilla, out/hello, out/notes, out/lexer, out/margin, the editor twice:
#                                 out/edit and out/edit_scintilla, and out/step1 to out/step6
#   make test, make check         tests/check: all that is tested of the library for C, its wrappers and packages
#   make bench                    bench/messages: what messages take, beside Scintilla where its library is found
#   make install PREFIX=/usr/local; LIBDIR=.. where the libraries have another place than $PREFIX/lib; both are named from / on
#   ldconfig                      then the loader knows the shared objects
#   make uninstall                takes away what `make install` with the same folders has put there
#   make deb                      out/deb: packages for Debian, with the program sci_console, which it proves and builds; make deb-libraries has
#                                 the library's alone; make dist a tarball with the wrappers for C++, Rust and Python
#   make wheel, make crates       the packages for Python and Rust, in out
#   make packages                 makes all of these, and tries them as somebody would who has just fetched them; as root, it installs and removes them too
#   make programs                 the examples, and out/checked_test, out/threads, out/memory, out/growths, out/scintilla and out/scintilla_examples
#   make load                     out/load and out/load_huge, which put the library under load (docs/TESTING.md)
# CC, CFLAGS, CPPFLAGS and LDFLAGS, for C++ CXX and CXXFLAGS, are heeded.
# The crate's own archive is made by `rt lib` in crates/hongpilas_c, which proves it first. A target that needs only what is built needs no `rt`.
PREFIX ?= /usr/local
LIBDIR ?= $(PREFIX)/lib
CFLAGS ?= -O2
CXXFLAGS ?= -O2
# Another folder would lie in this one, and the files for pkg-config would name none.
$(foreach name,PREFIX LIBDIR,$(if $(filter-out /%,$(firstword $($(name)))),$(error $(name)=$($(name)) is relative: name the folder from / on)))
PROVED := crates/hongpilas_c/out/libhongpilas_c.a
# The three functions that take memory, for the C library's heap: they lie beside the toolchain's first page.
GUIDE := $(shell rt doc 2>/dev/null)
HEAP := $(if $(GUIDE),$(dir $(GUIDE))c/liblibc_c.a)
# Stands in the recipes that need `rt`.
NEEDS_RT = $(if $(GUIDE),,$(error there is no `rt` on PATH: the library is proved and built by that of the toolchain))
# What the proof reads: code, definitions, proofs, and which crate uses which.
READ := crates.txt $(shell find crates -name out -prune -o \( -name '*.rt' -o -name '*.antt' \) -print)
# The program of the packages. Proved and built by `rt run`.
PROGRAM := crates/sci_console/out/sci_console
# The header's version: the major number times 1000, and the minor one.
MAJOR := $(shell awk '$$2 == "HONGPILAS_VERSION" { printf "%d", $$3 / 1000 }' include/hongpilas.h)
MINOR := $(shell awk '$$2 == "HONGPILAS_VERSION" { printf "%d", $$3 % 1000 }' include/hongpilas.h)
INSTALLED := $(DESTDIR)$(PREFIX)
INSTALLED_LIB := $(DESTDIR)$(LIBDIR)
INSTALLED_DOC := $(INSTALLED)/share/doc/hongpilas
INSTALLED_MAN := $(INSTALLED)/share/man/man3
HEADERS := hongpilas.h hongpilas.hpp hongpilas_scintilla.h
LIBRARIES := libhongpilas libhongpilas_scintilla
# What the header says to read, and what that refers to.
DOCS := LICENSE $(addprefix docs/,MESSAGES.md BEHAVIOUR.md PROFILE.md SCRIPTS.md TUTORIAL.md FROM_SCINTILLA.md scintilla_left_out.txt)
# What these link to, at the place that it has here.
EXAMPLES := $(shell find $(addprefix examples/,c messages rust steps) -type f)
# For pkg-config and for CMake.
FOUND_BY := out/hongpilas.pc out/hongpilas_scintilla.pc out/HongpilasConfig.cmake out/HongpilasConfigVersion.cmake
COMPILE := $(CC) -std=c99 -Iinclude $(CPPFLAGS) $(CFLAGS)

all: $(foreach library,$(LIBRARIES),out/$(library).a out/$(library).so) $(FOUND_BY)

$(PROVED): $(READ)
	$(NEEDS_RT)
	cd crates/hongpilas_c && python3 ../../tools/ci/proving.py hongpilas_c rt lib

# The calls that test their arguments, and names, are C, and no proof speaks of them.
out/checked.o out/names.o: out/%.o: c/%.c c/unchecked.h include/hongpilas.h
	mkdir -p out
	$(COMPILE) -fPIC -c $< -o $@

# The proved archive, with this C and the functions that take memory.
out/libhongpilas.a: $(PROVED) $(HEAP) out/checked.o out/names.o
	$(NEEDS_RT)
	mkdir -p out
	rm -f $@
	printf 'create %s\naddlib %s\naddlib %s\naddmod %s\naddmod %s\nsave\nend\n' $@ $(PROVED) $(HEAP) out/checked.o out/names.o | $(AR) -M

# The loader fills its tables before the first call, and nothing writes to them later. A name of the map that the library has not is a fault.
out/lib%.so: out/lib%.a c/%.map
	$(CC) -shared -nostartfiles -Wl,-z,defs $(CFLAGS) $(LDFLAGS) -Wl,-z,relro,-z,now -Wl,-soname,lib$*.so.$(MAJOR) \
	    -Wl,--version-script=c/$*.map,--no-undefined-version -Wl,--whole-archive $< -Wl,--no-whole-archive $(filter %.so,$^) $(BESIDE) -o $@

# The loader finds the one beside the other, wherever both are.
out/libhongpilas_scintilla.so: out/libhongpilas.so
out/libhongpilas_scintilla.so: private BESIDE := -Wl,-rpath,'$$ORIGIN'

# The Scintilla-compatible interface stands beside the libraries: a program that does not use it links none of it. An exception may pass through it.
out/libhongpilas_scintilla.a: c/scintilla.c c/scintilla_manners.h c/scintilla_queue.h c/scintilla_stack.h include/hongpilas_scintilla.h include/hongpilas.h
	mkdir -p out
	rm -f $@
	$(COMPILE) -fPIC -fexceptions -c $< -o out/scintilla.o
	$(AR) rcs $@ out/scintilla.o

# The programs of docs/TUTORIAL.md.
STEPS := $(addprefix out/step,1 2 3 4 5 6)

examples: out/replace_all out/replace_all_scintilla out/hello out/notes out/lexer out/margin out/edit out/edit_scintilla $(STEPS)

programs: examples out/memory out/growths out/notify out/scintilla out/scintilla_examples out/checked_test out/threads

# These stand between the library and the C library's heap.
out/memory out/growths out/notify out/scintilla: WRAPPED := -Wl,--wrap=malloc,--wrap=calloc,--wrap=realloc,--wrap=free
out/threads out/replace_all out/replace_all_scintilla out/step4 out/step5 out/step6: WRAPPED := -pthread
out/notify: WRAPPED += -pthread

# By hand: the library under load, beside Scintilla's where its library is named (docs/TESTING.md).
load: out/load out/load_huge

out/load.a: out/libhongpilas.a
	objcopy --redefine-sym malloc=load_malloc --redefine-sym realloc=load_realloc --redefine-sym free=load_free $< $@

out/load: tests/load/load.cpp tests/load/blocks.hpp tests/random.h out/load.a include/hongpilas.h
	$(CXX) -std=c++17 -g -Wall -Wextra -Iinclude $(CPPFLAGS) $(CXXFLAGS) $(LDFLAGS) $< out/load.a -ldl -o $@

out/load_huge: tests/load/load_huge.cpp tests/random.h out/libhongpilas.a include/hongpilas.h
	$(CXX) -std=c++17 -g -Wall -Wextra -Iinclude $(CPPFLAGS) $(CXXFLAGS) $(LDFLAGS) $< out/libhongpilas.a -o $@

# A program is in examples/c, in its tutorial, or in tests/c.
vpath %.c examples/c examples/c/tutorial tests/c

out/%: %.c out/libhongpilas.a include/hongpilas.h
	$(COMPILE) $(LDFLAGS) $< $(COMPATIBLE) out/libhongpilas.a $(WRAPPED) -o $@

# Those over the Scintilla-compatible interface.
OVER_IT := $(addprefix out/,scintilla scintilla_examples notify lexer margin replace_all_scintilla edit_scintilla)
$(OVER_IT): COMPATIBLE := out/libhongpilas_scintilla.a
$(OVER_IT): out/libhongpilas_scintilla.a

# The editor over the Scintilla-compatible interface: edit.c, but for a few lines.
out/edit_scintilla.c: examples/c/edit.c examples/c/edit_scintilla.diff
	mkdir -p out
	patch -s -o $@ examples/c/edit.c examples/c/edit_scintilla.diff

out/edit out/edit_scintilla: examples/c/terminal.h

out/edit_scintilla: out/edit_scintilla.c
	$(COMPILE) $(LDFLAGS) -Iexamples/c $< $(COMPATIBLE) out/libhongpilas.a -o $@

out/hongpilas.pc:
	mkdir -p out
	printf 'prefix=%s\nlibdir=%s\nincludedir=$${prefix}/include\n\nName: hongpilas\nDescription: An editing component with the messages of Scintilla, proved\nVersion: %s\nLibs: -L"$${libdir}" -lhongpilas\nCflags: -I"$${includedir}"\n' '$(PREFIX)' '$(LIBDIR)' $(MAJOR).$(MINOR) > $@

out/hongpilas_scintilla.pc:
	mkdir -p out
	printf 'prefix=%s\nlibdir=%s\n\nName: hongpilas_scintilla\nDescription: Hongpilas in the manner of SciFnDirect\nVersion: %s\nRequires: hongpilas\nLibs: -L"$${libdir}" -lhongpilas_scintilla\n' '$(PREFIX)' '$(LIBDIR)' $(MAJOR).$(MINOR) > $@

# The headers are named from this file on, so that what is installed may be moved.
$(filter %.cmake,$(FOUND_BY)): out/%.cmake: c/packaging/%.cmake.in
	mkdir -p out
	sed 's|@INCLUDE@|'"$$(realpath -ms --relative-to='$(LIBDIR)/cmake/Hongpilas' '$(PREFIX)/include')"'|; s|@MAJOR@|$(MAJOR)|g; s|@VERSION@|$(MAJOR).$(MINOR)|' $< > $@

# A file that is replaced gets a new inode: programs that run keep the old one. Links in pages lead to where things are installed.
install: all
	mkdir -p "$(INSTALLED)/include" "$(INSTALLED_LIB)/pkgconfig" "$(INSTALLED_LIB)/cmake/Hongpilas" "$(INSTALLED_MAN)"
	install -m 644 $(addprefix include/,$(HEADERS)) "$(INSTALLED)/include/"
	install -m 644 $(LIBRARIES:%=out/%.a) "$(INSTALLED_LIB)/"
	for library in $(LIBRARIES); do install -m 755 out/$$library.so "$(INSTALLED_LIB)/$$library.so.$(MAJOR)" && ln -sf $$library.so.$(MAJOR) "$(INSTALLED_LIB)/$$library.so" || exit 1; done
	install -m 644 $(filter %.pc,$(FOUND_BY)) "$(INSTALLED_LIB)/pkgconfig/"
	install -m 644 $(filter %.cmake,$(FOUND_BY)) "$(INSTALLED_LIB)/cmake/Hongpilas/"
	install -m 644 c/packaging/hongpilas.3 "$(INSTALLED_MAN)/"
	c/packaging/install_pages "$(INSTALLED_DOC)" $(DOCS) LICENSE-THIRD-PARTY $(EXAMPLES)

uninstall:
	rm -f $(HEADERS:%="$(INSTALLED)/include/%") $(patsubst out/%,"$(INSTALLED_LIB)/pkgconfig/%",$(filter %.pc,$(FOUND_BY))) "$(INSTALLED_MAN)/hongpilas.3"
	rm -f $(foreach ending,.a .so .so.$(MAJOR),$(LIBRARIES:%="$(INSTALLED_LIB)/%$(ending)"))
	rm -rf "$(INSTALLED_LIB)/cmake/Hongpilas" "$(INSTALLED_DOC)"

$(PROGRAM): $(READ)
	$(NEEDS_RT)
	cd crates/sci_console && echo 'sci 1' | python3 ../../tools/ci/proving.py sci_console rt run -- check -

deb: all $(PROGRAM)
	c/packaging/package deb $(PROGRAM)

deb-libraries: all
	c/packaging/package deb

dist: all
	c/packaging/package dist $(PROGRAM)

wheel: all
	cd bindings/python && python3 -B -c 'import wheel_of_hongpilas as it; print(it.build_wheel("../../out"))'

# Cargo builds what it has packed.
crates: all
	cd bindings/rust && HONGPILAS_LIB_DIR='$(CURDIR)/out' cargo package --quiet --workspace --offline --allow-dirty --target-dir '$(CURDIR)/out/cargo'
	cp out/cargo/package/*.crate out/

packages: all $(PROGRAM) wheel $(if $(shell command -v cargo),crates)
	bindings/check python rust deb dist

test check:
	tests/check

bench:
	bench/messages

clean:
	rm -rf out

.PHONY: all examples programs load test check bench install uninstall deb deb-libraries dist wheel crates packages clean $(FOUND_BY)
