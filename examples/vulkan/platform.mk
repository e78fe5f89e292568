# What both examples over Vulkan need to know of the system that they are compiled for.
CC ?= cc
OUT ?= out
ifneq (,$(findstring mingw,$(shell $(CC) -dumpmachine)))
EXE = .exe
STATIC = -static
# Each graphics driver installs vulkan-1.dll. Of its functions the examples call those of vulkan-1.def by their names.
LOADER ?= $(OUT)/libvulkan-1.a
DLLTOOL ?= $(or $(patsubst %gcc,%dlltool,$(filter %gcc,$(subst -posix,,$(firstword $(CC))))),dlltool)
PNG = -lgdiplus
else
LOADER ?= -lvulkan
PNG = -lpng
endif

all:

$(OUT)/libvulkan-1.a: $(dir $(lastword $(MAKEFILE_LIST)))vulkan-1.def
	@mkdir -p $(@D)
	$(DLLTOOL) -d $< -l $@
