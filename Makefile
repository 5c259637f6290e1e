# make run: the main job.  make test: the gate.  make bench: speed, scale and stack, measured (the gate does not run it).
# make demo: the bridge with a private broker, killed a few times.  make soak: the same for a long time, with everything that
# can happen to it (SOAK_SECONDS=900).
# make install PREFIX=/usr/local (and DESTDIR): archive, header, pkg-config file, bridge, unit, tools, manual pages.  make uninstall: removes them.
# make dist: archive, header, manual pages and docs with checksums, as a tar.  make deb: Debian packages in target/deb.
.PHONY: run test bench demo soak install uninstall dist deb

PREFIX = /usr/local

run:
	tools/main-job

test:
	.ci/run

bench:
	bench/run

demo:
	tools/demo

soak:
	tools/soak

install:
	PREFIX='$(PREFIX)' DESTDIR='$(DESTDIR)' tools/release install

uninstall:
	PREFIX='$(PREFIX)' DESTDIR='$(DESTDIR)' tools/release uninstall

dist:
	tools/release dist

deb:
	tools/release deb
