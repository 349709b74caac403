# Proves crates side by side, each after the crates below it, and then builds the program or archives of the C library.
# scripts/prove.sh calls this from the top of the repository.
#
# It calls the kit's compiler, rattle, as `rt ci` does. So a crate loads what the crates below it state, and not their
# proofs: loading these takes long, and `rt lib` has no option to leave them out.
#
# A kit that refuses the options of `rattle` here proves and builds by `rt lib`: that takes longer. `rt lib` has no
# option for other tools, so an archive in which C is in the place of the leaves is not built then.
#
# CRATES are the crates below the goals that have a directory here, ARCHIVES the goals that are archives, and JOBS is
# the greatest number of jobs of rattle. The directory LOGS, of the environment, gets the output for crates/NAME:
# NAME.log while rattle works on it and if it fails, which prove.sh prints, and NAME.proved afterwards: `ls` shows how
# far a long run is.
#
# Rattle's own compiler compiles the program: clang takes a minute and a half, and the result is not faster. The gate
# runs both.

.DEFAULT_GOAL = keywrap
options = --statements --links --antt-project --logic-built --backend
# The archives: of which crate, for which machine, and by which compiler.
of.llvm.a = keywrap_c x86_64-unknown-linux-gnu llvm
of.rattle.a = keywrap_c x86_64-unknown-linux-gnu rattle
of.arm64.a = keywrap_c aarch64-unknown-linux-gnu llvm
of.wasm64.a = keywrap_wasm wasm64-unknown-unknown llvm
of.hw.a = keywrap_hw x86_64-unknown-linux-gnu llvm
of.portable.a = keywrap_portable wasm64-unknown-unknown llvm
of.hw-arm64.a = keywrap_hw aarch64-unknown-linux-gnu llvm
crate_of = $(firstword $(of.$(1)) $(1))
# Each compiler takes the check of this crate for this machine.
check_of = $(word 1,$(of.$(1)))-for-$(word 2,$(of.$(1)))
$(foreach made,$(ARCHIVES),$(eval of.$(call check_of,$(made)) = $(of.$(made))))
CHECKS := $(sort $(foreach made,$(ARCHIVES),$(call check_of,$(made))))
.PHONY: keywrap $(CRATES) $(ARCHIVES) $(CHECKS)

kit := $(shell dirname -- "$$(dirname -- "$$(readlink -f -- "$$(command -v rt)")")")
# A build leaves two files of each crate for the next one: NAME.rlib for the crates above, and NAME.sums, the checksums
# of the sources of NAME and of the crates below it, and of the kit. Of an archive it leaves NAME.a and NAME.a.sums,
# and the sums of an archive over the leaves also have the scripts that put C in their place.
kept = crates/keywrap/out/kept
refused := $(shell help=$$('$(kit)/bin/rattle' build --help 2>/dev/null); \
    for option in $(options); do case $$help in (*"$$option"*) ;; (*) echo $$option ;; esac; done)
# The crates that a crate names in crates.txt, also for its tests; the ones in CRATES; and all crates below it. A crate
# without a directory here is in the kit.
named = $(shell sed -n 's/^$(crate_of)\( staticlib\)*: *//p' crates.txt)
below = $(filter $(CRATES),$(call named,$(1)))
all_below = $(sort $(foreach crate,$(call below,$(1)),$(crate) $(call all_below,$(crate))))
is_kept = $(shell [ -e $(kept)/$(1)$(if $(of.$(1)),,.rlib) ] && \
    b2sum --check --status $(kept)/$(1).sums 2>/dev/null && echo yes)
changed := $(foreach made,$(CRATES) $(ARCHIVES),$(if $(call is_kept,$(made)),,$(made)))
# The checksums are of the sources as they are at the start: a source that changes meanwhile differs from them.
sources = $(patsubst %,crates/%,$(crate_of) $(call all_below,$(1)))
over_leaves = $(filter keywrap_hw keywrap_portable,$(call crate_of,$(1)))
scripts = $(if $(call over_leaves,$(1)),generate/substitute.py generate/toolchain.sh)
sums = { scripts/sources.sh $(call sources,$(1)); b2sum '$(kit)/WHAT' $(scripts); } >"$$LOGS/$(1).sums"
$(foreach made,$(changed),$(shell $(call sums,$(made))))

$(CRATES): jobs = $(if $(filter 1,$(JOBS)),1,2)
keywrap keywrap_cli $(CHECKS): jobs = $(JOBS)
ifeq ($(ARCHIVES),)
# The crates key_files, key_lines, keywrap_cli, keywrap take longest, one after the other, and keywrap_cli also waits
# for key_wrap_core, so these come first. Others get the time that they leave. A second job costs a seventh of a crate's
# processor time, and only the first two need it.
others = $(filter-out key_files key_lines,$(CRATES:keywrap_cli=))
$(others): jobs = 1
$(filter-out block_pair key_wrap_core,$(others)): gently = nice -n 10
keywrap_io keywrap_args: gently = nice -n 19
else
# All archives wait for it.
keywrap_calls: jobs = $(JOBS)
endif

externs = $(foreach crate,std $(filter-out $(notdir $(wildcard crates/*)),$(call named,$@)),\
    --extern $(crate)='$(kit)/rlibs/$(crate).rlib') \
    $(foreach crate,$(call below,$@),--extern $(crate)=../../$(kept)/$(crate).rlib)
own = $(call crate_of,$@)
# A signal to make ends rattle: no shell is between them.
rattle = cd 'crates/$(own)' && exec $(gently) '$(kit)/bin/rattle' $(1) --crate-name $(own) $(externs) \
    -L dependency='$(kit)/rlibs' -L dependency=../../$(kept) --antt-project '$(kit)/rattle/logic/antt-project.json' \
    --links $(own)= $(if $(of.$@),--crate-type staticlib --target $(word 2,$(of.$@)))
proof = --logic-built '$(kit)/logic_built' --jobs $(jobs)
# Over the leaves the compiler calls C.
tools = $(if $(call over_leaves,$@),"$$LOGS/$@.toolchain",'$(kit)/toolchain')
compiled = --backend $(word 3,$(of.$@)) --toolchain $(tools)
is_proved = @mv "$$LOGS/$@.log" "$$LOGS/$@.proved"
rlib = $(call rattle,build) $(proof) --statements -o ../../$(kept)/$@.rlib src/lib.rt
archive = $(if $(call over_leaves,$@),generate/toolchain.sh $(tools) && )$(call rattle,build) \
    --crate-checked "$$LOGS/$(call check_of,$@)" $(compiled) -o ../../$(kept)/$@ src/lib.rt
ifneq ($(refused),)
# It writes each archive to one path.
.NOTPARALLEL:
by_rt = cd crates/$(own) && rt lib --target $(word 2,$(of.$@)) --backend $(word 3,$(of.$@)) && \
    cp out/lib$(own).a ../../$(kept)/$@
no_leaves = echo "$@: this kit refuses $(refused), without which no C takes the place of the leaves"; false
archive = $(if $(call over_leaves,$@),$(no_leaves),$(by_rt))
keywrap:
	@cd crates/keywrap && rt lib --backend rattle >"$$LOGS/$@.log" 2>&1
	$(is_proved)
endif

# The old checksums go first, so that they are never beside a newer NAME.rlib.
$(changed):
	@mkdir -p $(kept) && rm -f $(kept)/$@.sums
	@{ $(if $(of.$@),$(archive),$(rlib)); } >"$$LOGS/$@.log" 2>&1
	@mv "$$LOGS/$@.sums" $(kept)
	$(is_proved)

# What has not changed since it was proved.
$(filter-out $(changed),$(CRATES) $(ARCHIVES)):
	@: >"$$LOGS/$@.proved"

ifeq ($(refused),)
$(CHECKS):
	@$(call rattle,check) $(proof) -o "$$LOGS/$@" src/lib.rt >"$$LOGS/$@.log" 2>&1
	$(is_proved)

keywrap: $(CRATES)
	@mkdir -p $(kept) && $(call rattle,build) $(proof) --backend rattle --toolchain '$(kit)/toolchain' \
	    -o out/kept/keywrap.o src/main.rt >"$$LOGS/$@.log" 2>&1
	@'$(kit)/bin/rattle-link' --target x86_64-unknown-linux-gnu --toolchain '$(kit)/toolchain' -o $(kept)/keywrap \
	    $(kept)/keywrap.o '$(kit)/c/libos_c.a' '$(kit)/c/liblibc_c.a' >>"$$LOGS/$@.log" 2>&1
	@mv $(kept)/keywrap crates/keywrap/out
	$(is_proved)

$(foreach made,$(CRATES) $(CHECKS),$(eval $(made): $(call below,$(made))))
$(foreach made,$(filter $(ARCHIVES),$(changed)),$(eval $(made): $(call check_of,$(made))))
endif
