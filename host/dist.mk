# Lampreycoil from its tarball: the archive is there already, proved, in lib/. This builds, tests and
# installs the C host programs with a C compiler alone. `make dist` of the repository puts it here.

CC       = cc
ARCHIVE  = lib/liblampreycoil.a
HOST_DIR = bin

.PHONY: all host test clean
.DELETE_ON_ERROR:

all: host

include host/host.mk

host: $(HOST)

# The programs, the library through its header, and the examples of docs/C-GUIDE.md.
test: host
	@CC='$(CC)' ARCHIVE='$(ARCHIVE)' FLUX_FRAME=bin/flux_frame FLUX_FLOOR=bin/flux_floor host/test.sh

clean:
	rm -rf bin
