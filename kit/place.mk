# What follows from a description MANIFEST = NAME.in.toml: MODULES and their calls, modules.h, where all stands, and the
# manifest NAME.toml. mondrix.mk includes this.

mondrix.tools := $(MONDRIX_KIT)/place $(MONDRIX_KIT)/mondrix.py

# The modules, for make and for C.
$(BUILD)/modules.mk: $(MANIFEST) $(mondrix.tools)
	@mkdir -p $(@D)
	@$(MONDRIX_KIT)/place --make $< >$@
ifeq ($(MAKECMDGOALS),clean)
-include $(wildcard $(BUILD)/modules.mk)
else
include $(BUILD)/modules.mk
endif

$(BUILD)/modules.h: $(MANIFEST) $(MANIFEST.inputs) $(mondrix.tools)
	@mkdir -p $(@D)
	@$(MONDRIX_KIT)/place --header $< >$@.new
	@if cmp -s $@.new $@; then rm $@.new; else mv $@.new $@; fi

# A Makefile may make the inputs. Of one that isn't there place or check tells.
$(MANIFEST.inputs):

# Each module is linked twice: a trial, which knows no other module, tells its size and its gates; then all is placed.
mondrix.trials := $(MODULES:%=$(BUILD)/%.trial)
mondrix.remade := $(if $(wildcard $(MANIFEST.made)),,mondrix.absent)
$(BUILD)/placed: $(MANIFEST) $(MANIFEST.inputs) $(mondrix.trials) $(mondrix.tools) $(mondrix.remade)
	$(mondrix.at)$(MONDRIX_KIT)/place $(MANIFEST) $(BUILD) && touch $@
$(MODULES:%=$(BUILD)/%.place) $(MANIFEST.made): $(BUILD)/placed ;
.PHONY: mondrix.absent
.PRECIOUS: $(MANIFEST.made) $(MODULES:%=$(BUILD)/%.place)

# Where a link fails it may be that the module calls a gate that it may not enter.
mondrix.why = || { $(MONDRIX_KIT)/place --why $(MANIFEST) $(BUILD) $(1); exit 1; }

# What boots and will yet go wrong is said until it is put right.
all: $(BUILD)/checked
$(BUILD)/checked: $(MODULES:%=%.elf) $(MANIFEST.made) $(MANIFEST.inputs) $(MONDRIX_KIT)/check $(MONDRIX_KIT)/mondrix.py
	@if $(MONDRIX_KIT)/check $(MANIFEST.made); then touch $@; fi
