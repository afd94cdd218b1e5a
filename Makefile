# Proves, builds, checks and installs the program and the C library. `make` needs no -j: it uses all processors.

PREFIX = /usr/local
bin = $(DESTDIR)$(PREFIX)/bin
share = $(DESTDIR)$(PREFIX)/share
lib = $(DESTDIR)$(PREFIX)/lib
include = $(DESTDIR)$(PREFIX)/include
library = crates/ft_c/out/library
to_bash = $(share)/bash-completion/completions
to_vim = $(share)/vim/vimfiles
scripts = tools/faults tools/campaign tools/plot tools/report tools/cc tools/wasm2asm tools/set tools/ending \
  tools/debugger tools/dap tools/explain tools/lines tools/build tools/show
# What users call them.
commands = $(patsubst tools/%,talft-%,$(scripts))

# The program to install, if it is not the one that `make` builds here.
PROGRAM =
# The log of a gate run, for the counts in a release and for the evidence.
GATE_LOG =

targets = all program program-aarch64 check wrong-bodies library install install-program install-library uninstall dist deb \
  evidence same-bytes site clean help
.PHONY: $(targets)

# What is misspelt on the command line is refused before anything is proved.
quote := `
expected = $(quote)$(1)$(quote): expected $(subst $() ,$(comma) ,$(2))
comma = ,
told = $(if $(filter command,$(origin $(1))),$(error unknown variable $(quote)$(1)$(quote): write $(2)))
$(call told,prefix,PREFIX=DIR)
$(call told,destdir,DESTDIR=DIR)
$(call told,arch,ARCH=aarch64)
$(call told,heap,HEAP=arena)
$(foreach name,exec_prefix bindir libdir includedir mandir datadir,$(call told,$(name),PREFIX=DIR))
unknown = $(firstword $(filter-out $(targets),$(MAKECMDGOALS)))
$(if $(filter test tests,$(unknown)),$(error unknown target $(quote)$(unknown)$(quote): $(quote)make check$(quote) runs the tests))
$(if $(unknown),$(error unknown target $(call expected,$(unknown),$(targets))))

# Proves the crates that the program depends on, and builds it. With ARCH=aarch64 the program and the C library are made for
# that processor, as crates/talft/out/talft-aarch64 and crates/ft_c/out/library-aarch64.
ARCH = x86_64
$(if $(filter-out x86_64 aarch64,$(ARCH)),$(error unknown processor $(quote)$(ARCH)$(quote): expected x86_64 or aarch64))
all: $(if $(filter x86_64,$(ARCH)),program,program-$(ARCH) library)

program:
	@bash build/prove.sh

program-aarch64:
	@bash build/program.sh aarch64

# The gate: all crates, their tests, the wrong bodies, and the program run over real files.
check:
	@bash .ci/run

# The wrong bodies that the gate does not try: run before a release, and when a contract that they test changes.
wrong-bodies:
	@bash tests/wrong-bodies.sh

# The C library. With ARCH=aarch64 it is made for that processor; with HEAP=arena it takes its memory from the caller.
HEAP = heap
$(if $(filter-out heap arena,$(HEAP)),$(error unknown HEAP $(quote)$(HEAP)$(quote): expected heap or arena))
library:
	@HEAP=$(HEAP) bash build/library.sh $(ARCH)

# Both are made before anything is installed: if one cannot be proved, no half of an installation is left.
install: install-program install-library
ifneq ($(filter install,$(MAKECMDGOALS)),)
install-program: library
endif

# The program with its manual, tools and examples, and the identity of its build.
install-program: $(if $(PROGRAM),,all)
	install -d $(bin) $(share)/man/man1 $(share)/man/man5 $(share)/man/man7 $(to_bash) $(to_vim)/syntax $(to_vim)/ftdetect \
	  $(share)/talft/editors/vscode $(share)/talft/editors/debugging $(share)/talft/examples/c $(share)/talft/examples/rust \
	  $(share)/talft/tools/wasm $(share)/talft/tools/debugging $(share)/doc/talft
	install -m 755 $(or $(PROGRAM),crates/talft/out/talft) $(bin)/talft
	install -m 644 man/*.1 $(share)/man/man1
	install -m 644 man/*.5 $(share)/man/man5
	install -m 644 man/*.7 $(share)/man/man7
	install -m 644 editors/talft.bash $(to_bash)/talft
	for name in $(commands); do ln -sf talft $(to_bash)/$$name; done
	install -m 644 editors/vim/syntax/*.vim $(to_vim)/syntax
	install -m 644 editors/vim/ftdetect/talft.vim $(to_vim)/ftdetect
	install -m 644 editors/*.sublime-syntax $(share)/talft/editors
	install -m 644 editors/vscode/*.json $(share)/talft/editors/vscode
	install -m 755 editors/vscode/dap $(share)/talft/editors/vscode
	install -m 644 editors/debugging/* $(share)/talft/editors/debugging
	install -m 644 $(wildcard examples/*.*) $(share)/talft/examples
	install -m 644 $(wildcard examples/c/*.*) $(share)/talft/examples/c
	install -m 755 examples/c/ten_cycles $(share)/talft/examples/c
	install -m 644 $(wildcard examples/rust/*.*) $(share)/talft/examples/rust
	install -m 755 $(scripts) $(share)/talft/tools
	for name in $(commands); do ln -sf ../share/talft/tools/$${name#talft-} $(bin)/$$name; done
	install -m 644 $(filter-out $(scripts),$(wildcard tools/*.*)) $(share)/talft/tools
	install -m 644 tools/wasm/*.* $(share)/talft/tools/wasm
	install -m 644 tools/debugging/*.py $(share)/talft/tools/debugging
	top=$$(pwd -P) program=$(or $(PROGRAM),crates/talft/out/talft) bash -c '. build/about.sh; about' >$(share)/doc/talft/BUILD
	chmod 644 $(share)/doc/talft/BUILD

install-library: library
	install -d $(lib)/pkgconfig $(include) $(share)/man/man3 $(share)/talft/tools $(share)/talft/embed
	install -m 644 $(library)/libtalft.a $(lib)
	install -m 755 $(library)/libtalft.so $(lib)/libtalft.so.0
	ln -sf libtalft.so.0 $(lib)/libtalft.so
	install -m 644 $(library)/talft.pc $(lib)/pkgconfig
	install -m 644 include/talft.h $(include)
	install -m 644 man/*.3 $(share)/man/man3
	install -m 644 embed/talft.py $(share)/talft/tools
	install -m 644 embed/*.[ch] embed/talft.map $(share)/talft/embed

uninstall:
	rm -f $(lib)/libtalft.a $(lib)/libtalft.so $(lib)/libtalft.so.0 $(lib)/pkgconfig/talft.pc $(include)/talft.h
	rm -f $(patsubst man/%,$(share)/man/man3/%,$(wildcard man/*.3))
	rm -f $(addprefix $(bin)/,talft $(commands)) $(addprefix $(to_bash)/,talft $(commands))
	rm -f $(to_vim)/syntax/talft.vim $(to_vim)/syntax/talftasm.vim $(to_vim)/ftdetect/talft.vim
	rm -f $(patsubst man/%,$(share)/man/man1/%,$(wildcard man/*.1)) $(patsubst man/%,$(share)/man/man5/%,$(wildcard man/*.5))
	rm -f $(patsubst man/%,$(share)/man/man7/%,$(wildcard man/*.7))
	rm -rf $(share)/talft
	rm -f $(share)/doc/talft/BUILD
	rmdir $(share)/doc/talft 2>/dev/null || true

# A tarball and a Debian package of program and library, in out/.
dist: all library
	@bash build/dist.sh tar out "" $(GATE_LOG)

deb: all library
	@bash build/dist.sh deb out "" $(GATE_LOG)

# What was proved, tried and measured, in one folder in out/. Runs the gate unless GATE_LOG names its log.
evidence: all library
	@bash build/evidence.sh out $(GATE_LOG)

# The documents, the manual pages and the trace as a searchable site in out/site.
site:
	@rm -rf out/site
	@python3 build/site.py out/site

# Builds twice, in different folders, at different times, with different locales and numbers of processors, and
# compares the bytes.
same-bytes: all library
	@bash tests/same_bytes.sh

help:
	@echo 'make [TARGET] [VARIABLE=VALUE]'
	@echo '  all, program       proves and builds the program (without a target, too)'
	@echo '  library            proves and makes the C library'
	@echo '  install, uninstall installs program, tools, manual and library under PREFIX (/usr/local), or removes them'
	@echo '  install-program, install-library  only one of them'
	@echo '  check              the gate: proves all, and runs the tests'
	@echo '  wrong-bodies, same-bytes  longer tests'
	@echo '  dist, deb, evidence, site  makes a release, a Debian package, the evidence or the site, in out/'
	@echo '  clean              removes what was made'
	@echo 'variables: PREFIX=DIR, DESTDIR=DIR, PROGRAM=FILE, ARCH=x86_64 or aarch64, HEAP=heap or arena, GATE_LOG=FILE'

clean:
	rm -rf crates/*/out out
