# What people type. Nothing has to be built: prebuilt/ has the programs and the libraries (README.md).
#
#     make                checks that prebuilt/ fits the sources
#     make check          tries all that needs no proof and no toolchain: ./test --quick
#     make test           the whole gate, which needs the toolchain: ./test
#     make install        installs into PREFIX, by scripts/install; DESTDIR and LIBDIR are as said there, and FROM is a folder
#                         with built files, in place of that of prebuilt/
#     make uninstall      removes what the same variables install
#     make clean          removes what README.md makes in a clone
PREFIX = /usr/local
FROM =
MADE = check.py checked faulty greet hello hello-rust hello.c hello.py mend mend.c mend.py shop wrong.py

export DESTDIR LIBDIR

.PHONY: all check test install uninstall clean

all:
	scripts/release --check

check:
	./test --quick

test:
	./test

install:
	scripts/install '$(PREFIX)' $(FROM)

uninstall:
	scripts/install --uninstall '$(PREFIX)' $(FROM)

clean:
	rm -rf $(MADE)
