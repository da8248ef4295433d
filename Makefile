# `make try` prints the report of the example capture, before anything is proved. SETUP and CAPTURE name others.
# `make run` proves and builds the program and prints the report of the example capture. The libraries are proved side by side.
# `make test` is the gate (`rt ci`, which proves from nothing, side by side too), and then the checks of what is not Rattle:
# `make check-tools` (Python, shell), `make check-twin` (C), `make check-bindings` (the library, in C, Rust and Python) and
# `make check-packages` (the Debian packages in an empty system).
# `make check-units` watches an interface by the systemd units in a system that is booted in a container; it is not part of the gate.
# `make incidents` compares the documents and the reports of examples/incidents with what the built program prints ($CONFLUO, if set).
# `make install PREFIX=..` copies the built program, confluo-report, manual pages, completions, systemd units, examples, and the library
# if `make -C bindings archive` has built it.
# `make deb` makes Debian packages of them, build/NAME_VERSION_ARCHITECTURE.deb.
.PHONY: run try test check-tools check-twin check-bindings check-packages check-units incidents install deb built

PREFIX ?= /usr/local
PYTHON ?= python3
PROGRAM ?= $(or $(CONFLUO),crates/confluo/out/confluo)
LIBRARY = bindings/out/libconfluo.so.0
PLACE = $(DESTDIR)$(PREFIX)
SHARE = $(PLACE)/share
ZSH ?= $(SHARE)/zsh/site-functions

run:
	@$(PYTHON) tools/prove.py confluo
	@cd crates/confluo && rt run -- run --setup ../../examples/web_and_dns.setup --writers 4 --live 2 ../../examples/web_and_dns.pcap

try:
	@$(PYTHON) tools/first_report.py $(SETUP) $(CAPTURE)

test:
	rt ci
	@$(MAKE) --no-print-directory built check-tools check-twin check-bindings check-packages

check-tools:
	@if command -v $(PYTHON) > /dev/null; then cd tools/tests && $(PYTHON) -B -m unittest discover; \
	else echo "check-tools: skipped, there is no Python"; test -z "$$CI"; fi
	@if command -v $(PYTHON) > /dev/null; then $(PYTHON) tools/count_repeats.py; fi
	@tools/lint.sh

# The plain twin of bench/ is clean under warnings and sanitizers, and its log is whole by one writer and by several.
check-twin:
	@if command -v cc > /dev/null; then bench/check_twin.sh; else echo "check-twin: skipped, there is no C compiler"; test -z "$$CI"; fi

# The library, if `make -C bindings archive` has built it (which proves it and all below), is tried from C, under sanitizers too, from
# Rust and from Python, and as it is installed.
check-bindings:
	@$(MAKE) --no-print-directory -C bindings check

# Needs root and debootstrap, which fetches packages. Where they are not at hand it says so and ends well.
check-packages:
	@tools/deb/check.sh

# Needs root, systemd-nspawn and debootstrap. Where they are not at hand, or a container does not boot, it says so and ends well.
check-units:
	@tools/systemd/check.sh

built:
	@test -x $(PROGRAM) || { echo "There is no $(PROGRAM) yet: make run builds it"; exit 1; }

incidents:
	@if test -x $(PROGRAM); then $(PYTHON) examples/incidents/compare.py $(PROGRAM) && $(PYTHON) tools/check_documents.py $(PROGRAM); \
	else echo "There is no $(PROGRAM) yet (make run builds it): what it prints is not compared"; $(PYTHON) tools/check_documents.py; fi

install: built
	install -D -m 755 $(PROGRAM) $(PLACE)/bin/confluo
	install -D -m 755 tools/confluo-report $(PLACE)/bin/confluo-report
	install -d $(SHARE)/confluo/confluo_report
	install -m 644 tools/confluo_report/*.py VERSION $(SHARE)/confluo/confluo_report
	install -D -m 644 docs/confluo.1 $(SHARE)/man/man1/confluo.1
	install -D -m 644 tools/confluo-report.1 $(SHARE)/man/man1/confluo-report.1
	install -D -m 644 tools/completions/confluo.bash $(SHARE)/bash-completion/completions/confluo
	install -D -m 644 tools/completions/confluo-report.bash $(SHARE)/bash-completion/completions/confluo-report
	install -D -m 644 -t $(ZSH) tools/completions/_confluo tools/completions/_confluo-report
	install -D -m 644 -t $(SHARE)/fish/vendor_completions.d tools/completions/confluo.fish tools/completions/confluo-report.fish
	install -d $(PLACE)/lib/systemd/system
	for unit in tools/systemd/*.service; do \
	sed -e 's,@BIN@,$(PREFIX)/bin,' -e 's,@SHARE@,$(PREFIX)/share,' $$unit > $(PLACE)/lib/systemd/system/$${unit##*/} || exit 1; done
	install -D -m 644 -t $(PLACE)/lib/sysusers.d tools/systemd/confluo.conf
	$(PYTHON) tools/install_documents.py $(SHARE)/doc/confluo
	@if test -f "$(LIBRARY)"; then $(MAKE) --no-print-directory -C bindings install PREFIX=$(PREFIX) DESTDIR=$(abspath $(DESTDIR)); \
	else echo "install: the library is left out, make -C bindings archive builds it"; fi
	@test -n "$(DESTDIR)" || echo "install: for the units, run once: systemd-sysusers confluo.conf && systemctl daemon-reload"

deb: built
	$(PYTHON) tools/deb/build.py --program $(PROGRAM)
