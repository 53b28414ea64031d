# make show    shows the drafts in examples/ through the viewer, sound and refused ones, or with DRAFT=FILE that draft; TABLE=FILE is the
#              table that they are checked against, and TABLE= is none
# make list    lists the drafts in examples/, or with DRAFT=FILE that draft
# make viewer  builds the viewer, target/view/vogieburn-view
# make test    all tests; the last line is 'N passed, 0 failed'
# make quick   the same, but proves only what changed, tries no must-fail edit and asks for no layout
# make vectors holds the definitions against tests/vectors
# make trial   holds the library against the peer in tests/peer; TRIAL has words for it, as --short or --seed N
# make trial-selftest shows that the trial can fail
# make bench   measures reading and checking beside tests/bench/fast.c, and fails where reading does not keep the bar; BENCH has a word
#              for it, --times or --check
# make install PREFIX=DIR puts the library for C, its header, its pkg-config file, the viewer, the manual pages and the completion for
#              bash below DIR; with DESTDIR below that folder
# make uninstall PREFIX=DIR takes the same files away

VECTORS = $(addprefix tests/vectors/,read.txt check.txt run.txt tail.txt step.txt limits.txt) examples/worked.txt

DRAFT =
TABLE = examples/house.table
SHOWN = $(wildcard examples/sound/*.draft examples/refused/*.draft)
LISTED = $(wildcard examples/*.draft)

PREFIX = /usr/local
prefix = $(abspath $(PREFIX))
installed = $(DESTDIR)$(prefix)

# The one place that has the version is the header.
version = $(shell sed -n 's/^.define VOGIEBURN_VERSION "\(.*\)"$$/\1/p' include/vogieburn.h)

# The library for C, as rt proves and writes it, and below `stage` as it is installed, for the viewer.
archive = target/staticlib/libvogieburn.a
stage = $(abspath target/stage)
viewer = target/view/vogieburn-view

# The calls that have vogieburn(3) for their page.
calls = read check tail step operation_make refusal_words text data
pages = man3/vogieburn.3 man1/vogieburn-view.1 man5/vogieburn-table.5
links = $(patsubst %,man3/vogieburn_%.3,$(calls))

# All that is put below a prefix.
library_files = include/vogieburn.h lib/libvogieburn.a lib/pkgconfig/vogieburn.pc
files = $(library_files) bin/vogieburn-view $(addprefix share/man/,$(pages) $(links)) \
	share/bash-completion/completions/vogieburn-view

.PHONY: show list viewer test quick vectors trial trial-selftest bench install uninstall setup

show: viewer
	@tools/view $(if $(TABLE),-t $(TABLE)) $(or $(DRAFT),$(SHOWN))

list: setup
	@tools/list $(or $(DRAFT),$(LISTED))

test: setup
	@tests/run

quick: setup
	@tests/run --quick

vectors: setup
	@tools/vectors $(VECTORS)

trial: setup
	@tests/trial/run $(TRIAL)

trial-selftest: setup
	@tests/trial/run --selftest

bench: setup
	@tests/bench/run $(BENCH)

# A file with the prefix and the version in the places that are kept for them.
define put_filled # FILE TO FOR-PREFIX
sed -e 's|@PREFIX@|$(3)|' -e 's|@VERSION@|$(version)|' $(1) >$(2)
chmod 644 $(2)
endef

define put_library # BELOW FOR-PREFIX
install -d $(1)/include $(1)/lib/pkgconfig
install -m 644 include/vogieburn.h $(1)/include/
install -m 644 $(archive) $(1)/lib/
$(call put_filled,vogieburn.pc.in,$(1)/lib/pkgconfig/vogieburn.pc,$(2))
endef

define put_page # SECTION/PAGE
$(call put_filled,man/$(notdir $(1)),$(installed)/share/man/$(1))

endef

# No symbolic link, since the gate refuses one below the repository's folder, where a prefix may be.
define put_link # SECTION/PAGE
ln -f $(installed)/share/man/man3/vogieburn.3 $(installed)/share/man/$(1)

endef

# Proved anew whenever the code, a definition or a proof of the crates is younger.
$(archive): crates.txt $(shell find $(wildcard $(addprefix crates/*/,src specs proofs))) | setup
	cd crates/vogieburn && rt lib
	@mkdir -p $(dir $@)
	@cp crates/vogieburn/out/$(notdir $@) $@

viewer: setup $(archive)
	@mkdir -p $(dir $(viewer))
	@$(call put_library,$(stage),$(stage))
	tools/cc viewer/*.c $$(PKG_CONFIG_LIBDIR=$(stage)/lib/pkgconfig pkg-config --cflags --libs vogieburn) -o $(viewer)

install: viewer
	$(call put_library,$(installed),$(prefix))
	install -d $(installed)/bin $(addprefix $(installed)/share/man/man,1 3 5) $(installed)/share/bash-completion/completions
	install -m 755 $(viewer) $(installed)/bin/
	$(foreach page,$(pages),$(call put_page,$(page)))
	$(foreach link,$(links),$(call put_link,$(link)))
	install -m 644 viewer/completion.bash $(installed)/share/bash-completion/completions/vogieburn-view

uninstall:
	rm -f $(addprefix $(installed)/,$(files))

setup:
	@tools/setup
