# make try              builds the program without proofs, in a minute, and runs it on the captures in examples/variants
# make run              proves and builds the program, and runs it on the captures in sample/
# make check            runs all checks that a change must pass
# make build            proves and builds redo-log, redo-log-html, which writes a page of HTML, redo-log-json, which writes JSON, and
#                       redo-log-new, which compares builds
# make install          does the same, and installs in $(PREFIX): the programs with the scripts that start them, their manual
#                       pages, completions for bash, zsh and fish, and the files of install-capture;
#                       `make -o build install` installs the programs as they were built before
# make install-capture  installs $(PREFIX)/bin/redo-log-capture, which captures builds by make, and the files that it needs
# make uninstall        removes what `make install` installs with the same PREFIX; `make uninstall-capture` what install-capture does
# make deb              proves and builds the programs, and creates the Debian package out/redo-log_VERSION_amd64.deb;
#                       `make -o build deb` packs the programs as they were built before
# make dist             does the same with the archive out/redo-log-VERSION-linux-x86_64.tar.gz, for any prefix
PREFIX ?= /usr/local
# The directory of zsh's completions, relative to the prefix.
ZSH_FUNCTIONS = share/zsh/site-functions
# The directory for packages.
PACKAGES = out
DEST = $(DESTDIR)$(PREFIX)
CFLAGS ?= -O2
# Links redo-log-capture statically if a static C library is installed: it may run for each command of a build, and starts faster.
STATIC = $(shell echo 'int main(void) { return 0; }' | $(CC) -static -x c -o /dev/null - 2>/dev/null && echo -static)
# The hook is loaded into make. It uses nothing of a C library, so that one file works with all of them.
HOOK_FLAGS = -std=gnu11 -Wall -Wextra -O2 -fPIC -shared -nostdlib -ffreestanding -fno-stack-protector $(NO_LIBRARY_LOOPS) \
  -fvisibility=hidden -Wl,-z,now
# GCC's option against replacing loops by calls of the C library.
NO_LIBRARY_LOOPS = $(shell $(CC) -fno-tree-loop-distribute-patterns -E -x c /dev/null >/dev/null 2>&1 && \
  echo -fno-tree-loop-distribute-patterns)
# What is installed, relative to the prefix. FILES_OF: the files of a program, apart from those in libexec.
FILES_OF = bin/$(1) share/man/man1/$(1).1 share/bash-completion/completions/$(1) $(ZSH_FUNCTIONS)/_$(1) \
  share/fish/vendor_completions.d/$(1).fish
CAPTURE_FILES = $(call FILES_OF,redo-log-capture) libexec/redo-log/capture.def libexec/redo-log/capture.so
OTHER_FILES = $(ZSH_FUNCTIONS)/_redo_log_names \
  $(foreach program,redo-log redo-log-html redo-log-json redo-log-new,$(call FILES_OF,$(program)) libexec/redo-log/$(program))
REMOVE = rm -f $(foreach file,$(1),'$(DEST)/$(file)') && { rmdir '$(DEST)/libexec/redo-log' 2>/dev/null || :; }
VERSION = $(shell sed -n 's/^const VERSION.*redo-log \([0-9.]*\).*/\1/p' crates/redo_log_cli/src/program.rt)

.PHONY: try run check build install install-capture uninstall uninstall-capture deb dist version

try:
	@stderr_file=$$(mktemp) && cd crates/redo_log && \
	if rt try -- --dir '$(CURDIR)/examples/variants/captured' -r all 2>"$$stderr_file"; then \
	  rm "$$stderr_file"; echo 'Nothing was proved. To prove the program first, which takes 10 to 12 minutes on 4 processors: make run'; \
	else cat "$$stderr_file"; rm "$$stderr_file"; exit 1; fi

run:
	packaging/prove run --dir ../../sample all

check:
	bash .ci/run

build:
	packaging/prove build

install: build install-capture
	install -D crates/redo_log/out/redo_log '$(DEST)/libexec/redo-log/redo-log'
	install -D shell/launcher '$(DEST)/bin/redo-log'
	install -D -m 644 docs/redo-log.1 '$(DEST)/share/man/man1/redo-log.1'
	install -D -m 644 shell/redo-log.bash '$(DEST)/share/bash-completion/completions/redo-log'
	install -D -m 644 -t '$(DEST)/$(ZSH_FUNCTIONS)' shell/_redo-log shell/_redo_log_names
	install -D -m 644 shell/redo-log.fish '$(DEST)/share/fish/vendor_completions.d/redo-log.fish'
	install -D crates/redo_log_html/out/redo_log_html '$(DEST)/libexec/redo-log/redo-log-html'
	install -D shell/launcher '$(DEST)/bin/redo-log-html'
	install -D -m 644 docs/redo-log-html.1 '$(DEST)/share/man/man1/redo-log-html.1'
	install -D -m 644 shell/redo-log-html.bash '$(DEST)/share/bash-completion/completions/redo-log-html'
	install -D -m 644 shell/_redo-log-html '$(DEST)/$(ZSH_FUNCTIONS)/_redo-log-html'
	install -D -m 644 shell/redo-log-html.fish '$(DEST)/share/fish/vendor_completions.d/redo-log-html.fish'
	install -D crates/redo_log_json/out/redo_log_json '$(DEST)/libexec/redo-log/redo-log-json'
	install -D shell/launcher '$(DEST)/bin/redo-log-json'
	install -D -m 644 docs/redo-log-json.1 '$(DEST)/share/man/man1/redo-log-json.1'
	install -D -m 644 shell/redo-log-json.bash '$(DEST)/share/bash-completion/completions/redo-log-json'
	install -D -m 644 shell/_redo-log-json '$(DEST)/$(ZSH_FUNCTIONS)/_redo-log-json'
	install -D -m 644 shell/redo-log-json.fish '$(DEST)/share/fish/vendor_completions.d/redo-log-json.fish'
	install -D crates/redo_log_new/out/redo_log_new '$(DEST)/libexec/redo-log/redo-log-new'
	install -D shell/launcher '$(DEST)/bin/redo-log-new'
	install -D -m 644 docs/redo-log-new.1 '$(DEST)/share/man/man1/redo-log-new.1'
	install -D -m 644 shell/redo-log-new.bash '$(DEST)/share/bash-completion/completions/redo-log-new'
	install -D -m 644 shell/_redo-log-new '$(DEST)/$(ZSH_FUNCTIONS)/_redo-log-new'
	install -D -m 644 shell/redo-log-new.fish '$(DEST)/share/fish/vendor_completions.d/redo-log-new.fish'

install-capture:
	install -d '$(DEST)/bin' '$(DEST)/libexec/redo-log'
	$(CC) -std=gnu11 -Wall -Wextra -DVERSION='"$(VERSION)"' $(CFLAGS) $(STATIC) $(LDFLAGS) -o '$(DEST)/bin/redo-log-capture' capture/*.c
	$(CC) $(HOOK_FLAGS) -o '$(DEST)/libexec/redo-log/capture.so' capture/hook/*.c
	chmod 755 '$(DEST)/bin/redo-log-capture' '$(DEST)/libexec/redo-log/capture.so'
	install -D -m 644 -t '$(DEST)/libexec/redo-log' capture/capture.def
	install -D -m 644 docs/redo-log-capture.1 '$(DEST)/share/man/man1/redo-log-capture.1'
	install -D -m 644 shell/redo-log-capture.bash '$(DEST)/share/bash-completion/completions/redo-log-capture'
	install -D -m 644 shell/_redo-log-capture '$(DEST)/$(ZSH_FUNCTIONS)/_redo-log-capture'
	install -D -m 644 shell/redo-log-capture.fish '$(DEST)/share/fish/vendor_completions.d/redo-log-capture.fish'

# Other directories stay, because other programs may use them.
uninstall: uninstall-capture
	$(call REMOVE,$(OTHER_FILES))

uninstall-capture:
	$(call REMOVE,$(CAPTURE_FILES))

deb dist: build
	@packaging/pack $@ '$(PACKAGES)'

version:
	@echo '$(VERSION)'
