# make             proves the library and writes its archive, target/staticlib/libtippovrain.a
# make install     installs it, its header, a pkg-config file and the Rust crate's sources below PREFIX
# make uninstall   removes what make install put there
#
# PREFIX is an absolute path. With DESTDIR all is put below that folder, to be moved to PREFIX later.
PREFIX = /usr/local
DESTDIR =
MACHINE := $(shell uname -m)
VERSION := $(shell sed -n 's/^version = "\(.*\)"$$/\1/p' bindings/rust/Cargo.toml)

into = $(DESTDIR)$(PREFIX)
# build.rs of the crate finds the library from here, as ../../../lib
rust = $(into)/share/tippovrain/rust
rust_sources := $(patsubst bindings/rust/%,%,$(wildcard $(addprefix bindings/rust/,Cargo.toml build.rs src/*.rs examples/*)))

define pkg_config_file
prefix=$(PREFIX)
includedir=$${prefix}/include
libdir=$${prefix}/lib

Name: tippovrain
Description: A camera bench: noise, dark level, pattern, blinking sites, defects, colour, shading and gain from raw Bayer windows
Version: $(VERSION)
Cflags: -I$${includedir}
Libs: -L$${libdir} -ltippovrain
endef
export pkg_config_file

.PHONY: archive installable install uninstall

archive: target/staticlib/libtippovrain.a

# folders too, so that a file that is gone counts; without out/, where rt writes
target/staticlib/libtippovrain.a: crates.txt tools/native-lib $(shell find crates -name out -prune -o -print)
	@mkdir -p target/staticlib
	@echo 'tools/native-lib tippovrain: minutes, where nothing is proved yet'
	@tools/native-lib tippovrain
	@cp target/native/libtippovrain.a $@

installable:
	@[ "$(MACHINE)" = x86_64 ] || { echo 'make install: the archive is x86-64 code only, and this machine is $(MACHINE)' >&2; exit 1; }
	@case "$(PREFIX)" in /*) ;; *) echo 'make install: PREFIX must be an absolute path' >&2; exit 1 ;; esac

install: installable archive
	install -d "$(into)/include" "$(into)/lib/pkgconfig"
	install -m 644 target/staticlib/libtippovrain.a "$(into)/lib/"
	install -m 644 include/tippovrain.h "$(into)/include/"
	printf '%s\n' "$$pkg_config_file" >"$(into)/lib/pkgconfig/tippovrain.pc"
	chmod 644 "$(into)/lib/pkgconfig/tippovrain.pc"
	for source in $(rust_sources); do install -D -m 644 "bindings/rust/$$source" "$(rust)/$$source" || exit 1; done

uninstall:
	rm -f "$(into)/lib/libtippovrain.a" "$(into)/include/tippovrain.h" "$(into)/lib/pkgconfig/tippovrain.pc"
	rm -rf "$(into)/share/tippovrain"
