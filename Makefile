PREFIX ?= /usr/local

.PHONY: all map library example bench test install uninstall

# What `make install` copies: the library and both programs.
all:
	@tools/build.sh library volmap volumes

# The map program on a sample header: host size 1,048,576, location code 0, 512 header bytes.
map:
	@tools/build.sh volmap
	@{ printf '\0\0\0\0\0\020\0\0\0'; cat samples/tcplay-1048576-code0.header; } | target/bin/volmap

# target/staticlib/libondristela.a, for C.
library:
	@tools/build.sh library

# A tour of the program `volumes` on a sample image of its own.
example:
	@tools/build.sh library volumes
	@"$${CARGO_TARGET_DIR:-rust/target}/release/volumes" demo target/demo

# The measurements of docs/PERFORMANCE.md. Needs zlib1g-dev.
bench:
	@tools/needs.sh cargo cc
	@tools/build.sh library
	cargo bench --offline --manifest-path rust/Cargo.toml --bench boundary -- "$(CURDIR)/target/performance.csv"

test:
	@.ci/run

install uninstall: export DESTDIR := $(DESTDIR)
install uninstall: export PREFIX := $(PREFIX)

install: all
	@tools/install.sh

uninstall:
	@tools/install.sh --remove
