# `make` proves the core, builds the command and the libraries, and runs Area A; `make test` tries everything. README says what they need.
.PHONY: all built core test static install clean

PREFIX = /usr/local
archive = target/staticlib/librbu.a
release = --quiet --release --offline --manifest-path command/Cargo.toml

all: built
	@target/bin/area_a crates/area_a/stdin

built: core
	@cargo build $(release) --target-dir target/cargo
	@bash scripts/place target/cargo/release/rbu target/rbu
	@cc -shared -Wl,--whole-archive $(archive) -Wl,--no-whole-archive -o target/librbu.so

core:
	@bash scripts/prove

test:
	@bash .ci/run

# One file that needs no library of the system.
static: core
	@RUSTFLAGS="-C target-feature=+crt-static" cargo build $(release) --target-dir target/cargo/static
	@bash scripts/place target/cargo/static/release/rbu target/rbu-static

install:
	@bash scripts/install "$(DESTDIR)$(PREFIX)"

clean:
	@bash scripts/clean
