# `make demo` lists a sample, judges it piece by piece, clears it of names and writes its slip, and lists a skeleton and a mesh; `make test` is the gate.
CLI = rust/target/release/kelompuris

PREFIX = /usr/local
VERSION = $(shell sed -n 's/.define KELOMPURIS_VERSION "\(.*\)"/\1/p' include/kelompuris.h)

.PHONY: demo cli install peers test world

demo: cli
	$(CLI) check samples/*.b3d
	$(CLI) list samples/kitchen.b3d
	$(CLI) tree samples/kitchen.b3d
	$(CLI) stream < samples/kitchen.b3d
	$(CLI) clear --force samples/kitchen.b3d target/kitchen_cleared.b3d
	$(CLI) list target/kitchen_cleared.b3d
	$(CLI) slip --force samples/kitchen.b3d target/kitchen.slip
	$(CLI) slip --show target/kitchen.slip
	$(CLI) skeleton samples/door.csf
	$(CLI) mesh samples/door.cmf --skeleton samples/door.csf

cli:
	rust/build-lib
	cd rust && cargo build --offline --release -p kelompuris-cli --target-dir target

# The tool, its manual page and its completions, the header, the library and its pkg-config file; what `make cli` made.
install:
	install -D $(CLI) $(DESTDIR)$(PREFIX)/bin/kelompuris
	install -D -m 644 docs/kelompuris.1 $(DESTDIR)$(PREFIX)/share/man/man1/kelompuris.1
	for shell in bash:bash-completion/completions/kelompuris zsh:zsh/site-functions/_kelompuris fish:fish/vendor_completions.d/kelompuris.fish; do \
	    to=$(DESTDIR)$(PREFIX)/share/$${shell#*:}; mkdir -p "$${to%/*}" && $(CLI) completions $${shell%%:*} > "$$to" || exit 1; \
	done
	install -D -m 644 include/kelompuris.h $(DESTDIR)$(PREFIX)/include/kelompuris.h
	install -D -m 644 target/staticlib/libkelompuris_c.a $(DESTDIR)$(PREFIX)/lib/libkelompuris_c.a
	mkdir -p $(DESTDIR)$(PREFIX)/lib/pkgconfig
	printf 'Name: kelompuris\nDescription: B3D scenes and cal3d files, proved\nVersion: %s\nCflags: -I%s/include\nLibs: -L%s/lib -lkelompuris_c\n' \
	    $(VERSION) $(PREFIX) $(PREFIX) > $(DESTDIR)$(PREFIX)/lib/pkgconfig/kelompuris.pc

# Times beside the loaders of Assimp, Irrlicht and libcal3d, where Debian's libassimp-dev, libirrlicht-dev and libcal3d12-dev are installed; with the files that
# `make world` fetched.
peers:
	rust/build-lib
	$(CXX) -std=c++17 -O3 -Iinclude rust/bench/peers.cpp target/staticlib/libkelompuris_c.a -lassimp -lIrrlicht -lcal3d -o target/peers
	target/peers $(wildcard target/world/files/*/*.b3d)

# Every B3D file that Debian ships through each command, and counts beside those loaders'.
world: cli
	tools/world

test:
	bash .ci/run
