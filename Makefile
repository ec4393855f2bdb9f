# make             proves and builds the program, if it is older than its sources
# make test        the gate: proves every crate from nothing, runs every test; then the scripts over what the
#                  gate has built
# make scripts     those scripts alone, over what the last gate has left, with a warning where that is older
#                  than the sources: all of them, and then it names those that failed
# make bench       times the program beside dash and cat, and prints a table
# make install     installs the program, its language server, its manual page and its completions for bash,
#                  zsh and fish below PREFIX, itself below DESTDIR where that is given

PREFIX = /usr/local
PROGRAM = crates/shform/out/shform
SHARE = $(DESTDIR)$(PREFIX)/share
TESTS = crates/shtreetests/out/shtreetests_tests crates/shtests/out/shtests_tests \
	crates/shprinttests/out/shprinttests_tests crates/shlivetests/out/shlivetests_tests \
	crates/shrefusedtests/out/shrefusedtests_tests crates/shform/out/shform_tests
SCRIPTS = tests/run tests/examples tests/session tests/soak tests/lsp tests/terminal tests/refused-growths \
	tests/leaks tests/stack tests/second-reader tests/launcher tests/install tests/completions \
	tests/git-hook tests/pre-commit tests/columns tests/names tests/imports tests/uncited tests/twice \
	tests/stale tests/planted

# How many checks the gate runs side by side: one a processor, and one for 5 GB of free memory. The largest
# took 6.1 GB, but four at a time 12.8 where that was looked at; CHECK_KB of ./prove is the same 5 GB. Of
# itself rt reserves more for a check than it takes, and leaves processors idle.
LANES = $(shell awk -v most="$$(getconf _NPROCESSORS_ONLN)" '$$1 == "MemAvailable:" \
	{ lanes = int($$2 / 5000000); print lanes < 1 ? 1 : (lanes < most ? lanes : most) }' /proc/meminfo)

.PHONY: all test scripts bench install

all:
	@./shform --version

test:
	RT_JOBS=$(LANES) rt ci
	$(MAKE) scripts

# A program is older than its sources where one was changed, added or removed since, of whichever crate.
scripts: $(PROGRAM) $(TESTS)
	@for program in $(PROGRAM) $(TESTS); do \
		[ -z "$$(find crates.txt crates/*/src crates/*/specs crates/*/proofs -newer "$$program")" ] || \
			echo "make scripts: $$program is older than its sources: run make test" >&2; \
	done
	@failed=; for script in $(SCRIPTS); do \
		echo "$$script"; "$$script" || failed="$$failed $$script"; \
	done; [ -z "$$failed" ] || { echo "make scripts: FAILED:$$failed" >&2; exit 1; }

$(PROGRAM) $(TESTS):
	@echo "make scripts: there is no $@: run make test, whose gate leaves it" >&2; exit 1

bench:
	@./shform --version >/dev/null
	@tests/bench

install: all
	install -d "$(DESTDIR)$(PREFIX)/bin" "$(SHARE)/man/man1" "$(SHARE)/bash-completion/completions" \
		"$(SHARE)/zsh/site-functions" "$(SHARE)/fish/vendor_completions.d"
	install -m 755 $(PROGRAM) "$(DESTDIR)$(PREFIX)/bin/shform"
	install -m 755 contrib/lsp/shform-lsp "$(DESTDIR)$(PREFIX)/bin/shform-lsp"
	install -m 644 shform.1 "$(SHARE)/man/man1/shform.1"
	install -m 644 contrib/completions/shform.bash "$(SHARE)/bash-completion/completions/shform"
	install -m 644 contrib/completions/shform.zsh "$(SHARE)/zsh/site-functions/_shform"
	install -m 644 contrib/completions/shform.fish "$(SHARE)/fish/vendor_completions.d/shform.fish"
